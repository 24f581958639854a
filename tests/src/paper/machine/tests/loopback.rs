//! The five roles.

use super::*;
use Role::*;

/// An end in SEND_ANY in a role, with room for frames.
fn in_role(settings: Settings, role: Role) -> Tried {
    let mut tried = Tried::any(settings);
    tried.end.role = role;
    tried
}

#[test]
fn each_role_has_its_octet() {
    let octets = Role::ALL.map(Role::octet);
    assert_eq!(octets, [0x00, 0x06, 0x02, 0x06, 0x05]);
}

/// The answer to a request in each role, and the role after it.
fn requested(request: fn(&mut Tried) -> u8) -> [(u8, Role); 5] {
    Role::ALL.map(|role| {
        let mut tried = in_role(active(), role);
        (request(&mut tried), tried.end.role)
    })
}

#[test]
fn start_and_stop_have_their_roles() {
    let (yes, no) = (answer::ACCEPTED, answer::FORBIDDEN);
    assert_eq!(
        requested(Tried::start),
        [
            (yes, Asking),
            (yes, Asking),
            (no, Holding),
            (no, Ending),
            (no, Looping)
        ]
    );
    assert_eq!(
        requested(Tried::stop),
        [
            (no, Idle),
            (yes, Ending),
            (yes, Ending),
            (yes, Ending),
            (no, Looping)
        ]
    );
}

/// B30 and B33: a request owes but does not write, and 06 to 06 is no change.
#[test]
fn start_sends_the_enable_and_owes_the_state() {
    let mut tried = Tried::any(active());
    assert_eq!(tried.start(), answer::ACCEPTED);
    assert_eq!(tried.sent, frame_from(OWN, 0x0050, ENABLE_BODY));
    assert_eq!((tried.end.revision, tried.end.owed), (1, true));
    assert_eq!(tried.start(), answer::ACCEPTED);
    assert_eq!(tried.sent, frame_from(OWN, 0x0050, ENABLE_BODY));
    tried.tick();
    assert!(!tried.sent.is_empty() && !tried.end.owed);
    assert_eq!(tried.stop(), answer::ACCEPTED);
    assert_eq!(tried.sent, frame_from(OWN, 0x0050, DISABLE_BODY));
    assert_eq!((tried.end.revision, tried.end.owed), (1, false));
}

#[test]
fn a_whole_test_of_the_peer() {
    let mut tried = Tried::any(active());
    let local = |state| frame(DONE, &format!("00 {}", peer_tlv(state)));
    tried.start();
    tried.receive(&local("00"));
    assert_eq!(tried.end.role, Asking); // B37
    tried.receive(&local("05"));
    assert_eq!((tried.end.role, tried.end.revision), (Holding, 2));
    tried.receive(&local("00"));
    assert_eq!(tried.end.role, Holding); // B37
    tried.stop();
    assert_eq!((tried.end.role, tried.end.revision), (Ending, 3));
    tried.receive(&local("05"));
    assert_eq!(tried.end.role, Ending);
    tried.receive(&local("00"));
    assert_eq!((tried.end.role, tried.end.revision), (Idle, 4));
}

#[test]
fn only_the_named_state_bits_count_and_parser_3_matches_nothing() {
    for (role, state, expected) in [
        (Asking, "fd", Holding),
        (Asking, "01", Asking), // multiplexer forward
        (Asking, "07", Asking), // parser 3
        (Asking, "06", Asking),
        (Ending, "f8", Idle),
        (Ending, "03", Ending),
        (Ending, "04", Ending),
        (Idle, "05", Idle),
        (Looping, "00", Looping),
        (Holding, "05", Holding),
    ] {
        let mut tried = in_role(active(), role);
        tried.receive(&frame(DONE, &format!("00 {}", peer_tlv(state))));
        assert_eq!(tried.end.role, expected, "{role:?}, {state}");
    }
}

/// B38: a record held from earlier does not act.
#[test]
fn only_the_tlv_of_the_frame_acts() {
    let mut tried = Tried::any(active());
    tried.receive(&frame(DONE, &format!("00 {}", peer_tlv("05"))));
    tried.start();
    tried.receive(&frame(DONE, "00"));
    tried.receive(&frame(DONE, "fe"));
    let remote = peer_tlv("05").replacen("01", "02", 1);
    tried.receive(&frame(DONE, &format!("00 {remote}")));
    assert_eq!(tried.end.role, Asking);
    tried.receive(&frame(DONE, &format!("00 {}", peer_tlv("05"))));
    assert_eq!(tried.end.role, Holding);
}

/// The role after a command in each role, and whether it was obeyed: an obeyed
/// command owes a frame even where nothing changes.
fn commanded(settings: Settings, source: &str, body: &str) -> [(Role, bool); 5] {
    Role::ALL.map(|role| {
        let mut tried = in_role(settings, role);
        tried.receive(&frame_from(source, DONE, body));
        (tried.end.role, !tried.sent.is_empty())
    })
}

#[test]
fn an_enable_makes_idle_and_looping_loop() {
    assert_eq!(
        commanded(active(), HIGHER, ENABLE_BODY),
        [
            (Looping, true),
            (Asking, false),
            (Holding, false), // B39
            (Ending, false),
            (Looping, true)
        ]
    );
}

/// A19: the own address against that of the enable; equal is not higher.
#[test]
fn crossing_enables_go_by_the_address() {
    assert_eq!(commanded(active(), LOWER, ENABLE_BODY)[1], (Looping, true));
    assert_eq!(commanded(active(), OWN, ENABLE_BODY)[1], (Asking, false));
    assert_eq!(commanded(active(), HIGHER, ENABLE_BODY)[1], (Asking, false));
}

#[test]
fn an_enable_needs_the_own_bit_and_an_active_peer() {
    let without_loopback = Settings {
        configuration: 0x19,
        ..active()
    };
    let ignored = Role::ALL.map(|role| (role, false));
    assert_eq!(commanded(without_loopback, LOWER, ENABLE_BODY), ignored);
    for role in Role::ALL {
        let mut tried = in_role(active(), role);
        let passive_peer = peer_tlv("06").replacen("0d", "0c", 1);
        tried.receive(&frame(DONE, &format!("00 {passive_peer}")));
        tried.receive(&frame_from(LOWER, DONE, ENABLE_BODY));
        assert_eq!(tried.end.role, role);
        tried.assert_silent();
    }
}

/// A8: neither the own bit nor an active peer is needed to end looping.
#[test]
fn a_disable_ends_looping_always() {
    let expected = [
        (Idle, false),
        (Asking, false),
        (Holding, false),
        (Ending, false),
        (Idle, true),
    ];
    assert_eq!(commanded(active(), HIGHER, DISABLE_BODY), expected);
    assert_eq!(commanded(passive(), LOWER, DISABLE_BODY), expected);
    let without_loopback = Settings {
        configuration: 0x19,
        ..active()
    };
    assert_eq!(commanded(without_loopback, LOWER, DISABLE_BODY), expected);
}

#[test]
fn a_repeated_enable_owes_an_answer_but_no_revision() {
    let mut tried = Tried::any(active());
    tried.receive(&frame(DONE, ENABLE_BODY));
    tried.fill_stretch();
    tried.receive(&frame(DONE, ENABLE_BODY));
    assert_eq!((tried.end.owed, tried.end.revision), (true, 1));
    tried.receive(&frame(DONE, DISABLE_BODY));
    assert_eq!((tried.end.owed, tried.end.revision), (true, 2));
}

#[test]
fn a_lost_link_ends_looping() {
    let mut tried = Tried::any(active());
    tried.receive(&frame(DONE, ENABLE_BODY));
    tried.ticks(49);
    assert_eq!(tried.end.role, Looping);
    tried.tick();
    assert_eq!((tried.end.role, tried.end.revision), (Idle, 2));
}

/// Ends at different addresses that ask at once: the higher one loops.
#[test]
fn of_two_that_ask_at_once_the_higher_one_loops() {
    let lower = Settings {
        source: joined(&octets(LOWER)),
        ..active()
    };
    let (mut high, mut low) = (Tried::up(active()), Tried::up(lower));
    let first = high.sent.clone();
    high.receive(&low.sent);
    low.receive(&first);
    low.receive(&high.sent);
    high.receive(&low.sent);
    assert_eq!((high.start(), low.start()), (0, 0));
    let enable = high.sent.clone();
    high.receive(&low.sent);
    low.receive(&enable);
    assert_eq!((high.end.role, low.end.role), (Looping, Asking));
    low.receive(&high.sent);
    assert_eq!(low.end.role, Holding);
}
