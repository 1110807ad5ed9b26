//! The proved calls on the state, called as C calls them: slices as pointers and lengths, the state
//! as its numbers.

use reference::script::cell::Call;
use reference::store::heading::Heading;
use reference::store::record::Change;

mod c {
    macro_rules! calls {
        ($($name:ident($($argument:ident: $kind:ty),*);)*) => { extern "C" { $(
            pub fn $name(
                volume: *mut u8, volume_len: usize, memory: *mut u8, memory_len: usize,
                state: *mut u32, state_len: usize, $($argument: $kind,)*
                report: *mut u32, report_len: usize,
            ) -> u32;
        )* } };
    }
    calls! {
        pagestore_begin(page: u32, frame: u32, fill: u32);
        pagestore_load(page: u32, frame: u32);
        pagestore_change(
            page: u32, kind: u32, offset: u32, length: u32, fill: u32, payload: *const u8, payload_len: usize
        );
        pagestore_force();
        pagestore_write(page: u32);
        pagestore_backup(page: u32, slot: u32);
        pagestore_release(page: u32);
        pagestore_note();
        pagestore_start_carry();
        pagestore_restamp();
        pagestore_finish_carry();
    }
    extern "C" {
        pub fn pagestore_make(v: *mut u8, len: usize, p: u32, b: u32, l: u32, n: u32) -> u32;
        pub fn pagestore_make_first(v: *mut u8, len: usize, p: u32, b: u32, l: u32, n: u32) -> u32;
        pub fn pagestore_restart(
            volume: *const u8, volume_len: usize, memory: *mut u8, memory_len: usize,
            state: *mut u32, state_len: usize,
        ) -> u32;
    }
}

/// What a call is lent. Each is a buffer of its own.
#[derive(Clone, PartialEq, Eq)]
pub struct Lent {
    pub volume: Vec<u8>,
    pub memory: Vec<u8>,
    pub state: Vec<u32>,
    pub report: Vec<u32>,
}

impl Lent {
    /// Makes the call, with `more` added to its page number; None for calls that take no state.
    pub fn call(&mut self, call: &Call, more: u32) -> Option<u32> {
        let (v, vn) = (self.volume.as_mut_ptr(), self.volume.len());
        let (m, mn) = (self.memory.as_mut_ptr(), self.memory.len());
        let (s, sn) = (self.state.as_mut_ptr(), self.state.len());
        let (r, rn) = (self.report.as_mut_ptr(), self.report.len());
        let numbered = |page: u16| u32::from(page).wrapping_add(more);
        // SAFETY: the four buffers are live, apart from each other, and as long as is said; so is the payload.
        let answer = unsafe {
            match *call {
                Call::Make { heading: Heading::First, counts: [p, b, l, n] } => {
                    c::pagestore_make_first(v, vn, p, b, l, n)
                }
                Call::Make { counts: [p, b, l, n], .. } => c::pagestore_make(v, vn, p, b, l, n),
                Call::Restart => c::pagestore_restart(v, vn, m, mn, s, sn),
                Call::Begin { page, frame, fill } => {
                    let (page, frame) = (numbered(page), frame.into());
                    c::pagestore_begin(v, vn, m, mn, s, sn, page, frame, fill.into(), r, rn)
                }
                Call::Load { page, frame } => {
                    c::pagestore_load(v, vn, m, mn, s, sn, numbered(page), frame.into(), r, rn)
                }
                Call::Change { page, change, payload } => {
                    let (kind, offset, length, fill) = numbers(change);
                    let (bytes, count) = (payload.as_ptr(), payload.len());
                    let page = numbered(page);
                    c::pagestore_change(
                        v, vn, m, mn, s, sn, page, kind, offset, length, fill, bytes, count, r, rn,
                    )
                }
                Call::Force => c::pagestore_force(v, vn, m, mn, s, sn, r, rn),
                Call::Write { page } => c::pagestore_write(v, vn, m, mn, s, sn, numbered(page), r, rn),
                Call::Backup { page, slot } => {
                    c::pagestore_backup(v, vn, m, mn, s, sn, numbered(page), slot.into(), r, rn)
                }
                Call::Release { page } => c::pagestore_release(v, vn, m, mn, s, sn, numbered(page), r, rn),
                Call::Note => c::pagestore_note(v, vn, m, mn, s, sn, r, rn),
                Call::Start => c::pagestore_start_carry(v, vn, m, mn, s, sn, r, rn),
                Call::Restamp => c::pagestore_restamp(v, vn, m, mn, s, sn, r, rn),
                Call::Finish => c::pagestore_finish_carry(v, vn, m, mn, s, sn, r, rn),
                _ => return None,
            }
        };
        Some(answer)
    }
}

/// Kind, offset, length and fill.
fn numbers(change: Change) -> (u32, u32, u32, u32) {
    match change {
        Change::Format { fill } => (1, 0, 0, fill.into()),
        Change::Put { offset, length } => (2, offset.into(), length.into(), 0),
        Change::Slide { offset, length } => (3, offset.into(), length.into(), 0),
    }
}
