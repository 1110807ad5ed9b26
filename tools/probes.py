"""The module that tools/mutants.py has checked: one declaration for each row or history asked for."""

PROBE = """-- One declaration for each row or history asked for: made by tools/mutants.py.
use Prim.Native.String.{String}
use mathlib.Core.Bool.{Bool, true, false, cond}
use mathlib.Core.List.{List, [], ◌∷◌}
use lib.Dec.{T}
use lib.Text.{eqt}
use Rattle.cases.specs.Opened.{opened}
use Rattle.cases.specs.Rows.{Row, same}
use Rattle.cases.specs.All.{rows, disk_rows, call_rows, turned_rows, report_rows, planning_rows, carry_rows}
use Rattle.cases.specs.All.{all_histories}
use Rattle.cases.specs.Rings.{ring_rows, ring_events}
use Rattle.cases.specs.RingEdges.{ring_edges}
use Rattle.cases.specs.Examined.{examined_rows}
use Rattle.cases.specs.Forecasts.{forecast_rows}
use Rattle.cases.specs.Archives.{archive_rows}
use Rattle.cases.specs.Mirrors.{mirror_rows}
use Rattle.cases.specs.Neighbours.{neighbour_rows}
use Rattle.cases.specs.Rehearsals.{rehearsal_cases, rehearsal_runs}
use Rattle.cases.specs.Carried.{carried_rows}
use Rattle.cases.specs.CarriedEvents.{carried_events}
use Rattle.cases.specs.Worked.{Worked, computes}
use Rattle.cases.specs.Histories.{histories}

-- all that have the name: some stand there once for each heading
row : String → List Row → Bool
row n [] = true
row n (r ∷ rs) = let rest = row n rs in let here = cond (same r.found r.says) rest false in cond (eqt r.name n) here rest

history : String → List Worked → Bool
history n [] = true
history n (w ∷ ws) = let rest = history n ws in let here = cond (computes w) rest false in cond (eqt w.name n) here rest
"""
# the same for the rows of upkeep, which stand in a crate of their own
UPKEEP_PROBE = """-- One declaration for each row asked for: made by tools/mutants.py.
use Prim.Native.String.{String}
use mathlib.Core.Bool.{Bool, true, false, cond}
use mathlib.Core.List.{List, [], ◌∷◌, ◌++◌}
use lib.Dec.{T}
use lib.Text.{eqt}
use Rattle.cases.specs.Opened.{opened}
use Rattle.cases.specs.Rows.{Row, same}
use Rattle.upkeep_cases.specs.Upkeeps.{upkeep_rows}
use Rattle.upkeep_cases.specs.Turns.{turn_rows, later_turns, lock_rows}

row : String → List Row → Bool
row n [] = true
row n (r ∷ rs) = let rest = row n rs in let here = cond (same r.found r.says) rest false in cond (eqt r.name n) here rest

unfoldable rows : List Row
rows = upkeep_rows ++ (turn_rows ++ (later_turns ++ lock_rows))
"""
# what a row's test unfolds: the table's parts, and all that they compute with
OPENED = (
    "opened rows disk_rows call_rows turned_rows ring_rows ring_events ring_edges report_rows examined_rows forecast_rows "
    "archive_rows mirror_rows neighbour_rows planning_rows rehearsal_cases rehearsal_runs carry_rows carried_rows carried_events "
    "histories all_histories"
)
UPKEEP_OPENED = "opened rows upkeep_rows turn_rows later_turns lock_rows"


def write_probe(crate, to, rows, names):
    text, opened = (PROBE, OPENED) if crate == "cases" else (UPKEEP_PROBE, UPKEEP_OPENED)
    for i, name in enumerate(names):
        kind, of = ("row", "rows") if name in rows else ("history", "all_histories")
        text += f'\ncaught-{i} : T ({kind} "{name}" {of})\nunfolding {opened} {kind}\ncaught-{i} = tt\n'
    (to / "crates" / crate / "proofs/Probe.antt").write_text(text)
