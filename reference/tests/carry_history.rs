//! Histories whose volume is carried over, each step held against the abstract log.

use reference::checks::histories::Checker;
use reference::generators::world::{Event, Left, Place, World};
use reference::script::cell::Call;
use reference::script::recorder::Script;
use reference::store::answer::Answer;
use reference::store::geometry::{Geometry, IMAGE_LEN};
use reference::store::heading::{sealed_by_bytes, sealed_by_words, Heading};
use reference::store::image::{blank_image, set_image_lsn};
use reference::store::record::Change;

struct History(Checker);

/// P 2, B 3, L 8, N 8 under the first heading, two frames, both pages begun and durable.
fn history() -> History {
    let geometry = Geometry::new(Heading::First, [2, 3, 8, 8]).unwrap();
    let mut history = History(Checker::new(World::make(Script::default(), geometry, 9)));
    history.event(Event::Lend { memory_len: 1_536, byte: 3 });
    history.calls(&[Call::Restart]);
    for page in [1, 2] {
        history.calls(&[Call::Begin { page, frame: page, fill: page as u8 }, Call::Force]);
    }
    history
}

impl History {
    fn event(&mut self, event: Event) {
        self.0.step(event, true).unwrap_or_else(|text| panic!("{text}"));
    }

    /// Calls that are all done.
    fn calls(&mut self, calls: &[Call]) {
        for &call in calls {
            let answer = self.world().script.driver.trial().call(&call);
            assert!(matches!(answer, Answer::Done | Answer::Rebuilt(_)), "{call:?}: {answer}");
            self.event(Event::Call(call));
        }
    }

    fn world(&self) -> &World {
        &self.0.world
    }

    fn image(&self, place: Place) -> Vec<u8> {
        self.world().volume()[self.world().place(place)].to_vec()
    }

    fn stored_in(&self, place: Place) -> Vec<Vec<u8>> {
        let stored = self.world().stored.iter().filter(|(at, _)| *at == place);
        stored.map(|(_, image)| image.clone()).collect()
    }

    fn cut(&mut self, within: Call, left: Left) {
        self.event(Event::Cut { within: Some(within), left });
        self.calls(&[Call::Restart]);
    }
}

fn put(page: u16) -> Call {
    let change = Change::Put { offset: 5, length: 3 };
    Call::Change { page, change, payload: [0x77; 44] }
}

fn load(page: u16) -> Call {
    Call::Load { page, frame: page }
}

/// Page 2's image, forged by the old sum in the slot that page 1's backup is in; then the
/// backup moves, and the slot takes any page.
fn with_forgery() -> History {
    let mut history = history();
    history.calls(&[Call::Backup { page: 1, slot: 1 }, Call::Note]);
    let mut forged = blank_image(2);
    set_image_lsn(&mut forged, 2);
    forged[100] = 1;
    Heading::First.seal_image(&mut forged);
    history.event(Event::Damage { place: Place::Slot(1), bytes: forged.to_vec() });
    history.calls(&[Call::Backup { page: 1, slot: 2 }, Call::Note, Call::Start]);
    history
}

/// A restamped image counts as stored in its place exactly if the one before it does.
#[test]
fn a_restamped_forgery_is_not_stored() {
    let mut history = with_forgery();
    history.calls(&[Call::Restamp]);
    let (first, second) = (Place::Slot(1), Place::Slot(2));
    assert!(sealed_by_bytes(&history.image(first)));
    assert_eq!(history.stored_in(first).len(), 1);
    assert!(!history.stored_in(first).contains(&history.image(first)));
    history.calls(&[Call::Restamp]);
    assert_eq!(history.stored_in(second).len(), 2);
    assert!(history.stored_in(second).contains(&history.image(second)));
    history.calls(&[Call::Finish]);
}

/// The same where the call is cut and the image is left new.
#[test]
fn a_cut_restamp_of_a_forgery() {
    let mut history = with_forgery();
    history.cut(Call::Restamp, Left::New);
    assert!(sealed_by_bytes(&history.image(Place::Slot(1))));
    assert_eq!(history.stored_in(Place::Slot(1)).len(), 1);
    history.cut(Call::Restamp, Left::New);
    assert_eq!(history.stored_in(Place::Slot(2)).len(), 2);
}

/// From the first heading to the second with cuts, a torn restamp, an old image that comes
/// back, and changes between the steps.
#[test]
fn a_worked_history() {
    let mut history = history();
    for page in [1, 2] {
        history.calls(&[Call::Write { page }, Call::Note]);
    }
    history.calls(&[Call::Backup { page: 1, slot: 3 }, Call::Note]);
    let old_backup = history.image(Place::Slot(3));
    history.cut(Call::Start, Left::Old);
    history.cut(Call::Start, Left::New);
    assert_eq!(history.world().geometry.heading, Heading::Carrying);
    history.calls(&[load(1), put(1), Call::Force, Call::Restamp]);
    let torn = vec![0xEE; IMAGE_LEN];
    history.cut(Call::Restamp, Left::Torn(torn.clone()));
    assert_eq!(history.image(Place::Page(2)), torn);
    history.calls(&[load(1), Call::Write { page: 1 }, Call::Note, Call::Restamp]);
    assert!(sealed_by_bytes(&history.image(Place::Slot(3))));
    history.event(Event::Damage { place: Place::Slot(3), bytes: old_backup.clone() });
    assert!(sealed_by_words(&old_backup));
    history.cut(Call::Finish, Left::Old);
    history.calls(&[Call::Restamp]);
    history.cut(Call::Finish, Left::New);
    assert!(history.world().geometry.is_ring());
    history.event(Event::Damage { place: Place::Slot(3), bytes: old_backup });
    history.calls(&[load(1), load(2), put(2), Call::Force, Call::Write { page: 2 }, Call::Note]);
    for page in [1, 2] {
        let answer = history.world().script.driver.trial().call(&Call::Inspect { page });
        assert_eq!(answer.to_string(), "GOOD OWN 0");
    }
}
