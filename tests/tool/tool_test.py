#!/usr/bin/env python3
"""The field engineer's tool, tried as a field engineer would: every command, its status, its sentences, its JSON names.

    python3 tests/tool/tool_test.py TOOL [WORD ...]     all tests, or those whose names hold one of the words
"""
import sys

import habits_test
import reading_test
import trial
import writing_test

if __name__ == "__main__":
    sys.exit(trial.main(*reading_test.CASES, *writing_test.CASES, *habits_test.CASES))
