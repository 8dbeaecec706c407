//! The document's whole case and its further cases, verbatim.

use compare::gate::{self, Answer, Colour, PluginList, Rule, Slot, Ticket, Value, Words};
use compare::schedule::{next_call, Next};
use compare::transcript::{transcript, GateHost, Host};

fn printed(input: &str) -> String {
    String::from_utf8(transcript(input.as_bytes())).unwrap()
}

/// Document 01's whole case, which `examples/` has as the paper shows it.
#[test]
fn whole_case() {
    let input = include_str!("../../../examples/three-plugins.schedule");
    let wanted = include_str!("../../../examples/three-plugins.expected");
    assert_eq!(printed(input), wanted);
}

/// "N 1,024 opens, 1,025 and 0 give 1; k 64 opens, 65 gives 1."
#[test]
fn sizes() {
    let input = "O 1024 1\nO 1025 1\nO 0 1\nO 1 64\nO 1 65\nO 1 0\n";
    let wanted = "O 1024 1 0\nO 1025 1 1\nO 0 1 1\nO 1 64 0\nO 1 65 1\nO 1 0 1\n";
    assert_eq!(printed(input), wanted);
}

/// "N 2, k 1: T 1, L 1, B 1 leave VALID 0/1; T 2 then hands out 0/1, valid."
#[test]
fn two_plugins_one_slot() {
    let input = "O 2 1\nT 1\nL 1\nB 1\nT 2\nP 2\nL 2\n";
    let wanted = "\
O 2 1 0
T 1 0 1/0 1/0 1/0
L 1 0 1 1/0 1/0
B 1 0 - 1/0 0/1
T 2 0 0/1 0/1 0/1
P 2 0 0 0/1 0/1
L 2 0 1 0/1 0/1
";
    assert_eq!(printed(input), wanted);
}

/// "N 1, k 2: T 1, L 1, B 1, T 1 leave ticket 2/0, valid by its count."
#[test]
fn one_plugin_two_slots() {
    let input = "O 1 2\nT 1\nL 1\nB 1\nT 1\nL 1\n";
    let wanted = "\
O 1 2 0
T 1 0 1/0 1/0 2/0
L 1 0 1 1/0 2/0
B 1 0 - 1/0 0/1
T 1 0 2/0 2/0 0/1
L 1 0 1 2/0 0/1
";
    assert_eq!(printed(input), wanted);

    let mut list = PluginList::idle(1);
    let mut words = gate::open(1989, 1, 2, &mut list.lend()).words;
    for call in [gate::take, gate::look, gate::leave, gate::take] {
        words = call(&words, &mut list.lend(), 1).words;
    }
    let ticket = list.ticket(0);
    assert_eq!(ticket, Ticket::new(2, 0));
    assert_ne!(ticket.colour, words.valid.colour);
    assert_eq!(words.count(ticket.colour), 1);
    assert!(gate::steps::valid(&words, ticket));
}

/// Document 02, A.4: "The slot returned longest ago goes out first; at opening they
/// lie in rising order." Two in, two out, one in.
#[test]
fn slots() {
    let mut list = PluginList::idle(2);
    let mut words = gate::open(1989, 2, 3, &mut list.lend()).words;
    let mut call = |letter: u8, p: u64| {
        let reply = gate::by_letter(letter)(&words, &mut list.lend(), p);
        words = reply.words;
        let row = words.free.iter().copied().take_while(|&slot| slot != 0);
        let given = reply.answer.slot().0;
        (given, list.slots.clone(), row.collect::<Vec<u8>>())
    };
    call(b'T', 1);
    assert_eq!(call(b'L', 1), (1, vec![1, 0], vec![2, 3]));
    call(b'T', 2);
    assert_eq!(call(b'L', 2), (2, vec![1, 2], vec![3]));
    assert_eq!(call(b'B', 1), (0, vec![0, 2], vec![3, 1]));
    assert_eq!(call(b'B', 2), (0, vec![0, 0], vec![3, 1, 2]));
    call(b'T', 1);
    assert_eq!(call(b'L', 1), (3, vec![3, 0], vec![1, 2]));
    // "A handed-back turn returns no slot."
    call(b'T', 2);
    assert_eq!(call(b'B', 2), (0, vec![3, 0], vec![1, 2]));
}

/// What the last of these calls is answered, each a letter and a plugin, all accepted.
fn last(n: u64, k: u64, calls: &[(u8, u64)]) -> Answer {
    let mut list = PluginList::idle(n as usize);
    let mut reply = gate::open(1989, n, k, &mut list.lend());
    for &(letter, p) in calls {
        assert_eq!(reply.number(), 0);
        reply = gate::by_letter(letter)(&reply.words, &mut list.lend(), p);
    }
    reply.answer
}

/// Document 02, A.5: "There are four: same colour, not above VALID's value; same colour,
/// above it; other colour, counted; other colour, not counted. The first two carry both
/// values, the last two the colour and its count."
#[test]
fn four_rules() {
    let two_wait = [(b'T', 1), (b'T', 2), (b'L', 2)];
    // The ticket is 2/0, VALID 3/0.
    let rule = Rule::NotAbove(Value(2), Value(3));
    assert_eq!(last(3, 3, &two_wait), Answer::Yes(Slot(1), rule));
    // The ticket is 2/0, VALID 1/0.
    let rule = Rule::Above(Value(2), Value(1));
    assert_eq!(last(3, 1, &two_wait), Answer::No(rule));
    // The ticket is 2/0, VALID 0/1, and colour 0 has the count 1.
    let handed_back = [(b'T', 1), (b'B', 1), (b'T', 1), (b'L', 1)];
    let rule = Rule::Counted(Colour(0), 1);
    assert_eq!(last(1, 2, &handed_back), Answer::Yes(Slot(1), rule));
    // The ticket is 0/1, VALID 1/0.
    let rule = Rule::NotCounted(Colour(1), 0);
    assert_eq!(last(2, 1, &two_wait), Answer::No(rule));
}

/// The same where all 64 places are full.
#[test]
fn all_slots_free() {
    let mut list = PluginList::idle(1);
    let opened = gate::open(1989, 1, 64, &mut list.lend()).words;
    let words = gate::take(&opened, &mut list.lend(), 1).words;
    let reply = gate::leave(&words, &mut list.lend(), 1);
    assert_eq!(reply.answer, Answer::Done);
    assert_eq!(reply.words.free.to_vec(), (1..=64).collect::<Vec<u8>>());
    assert_eq!(list, PluginList::idle(1));
}

/// "`T 01` and `T  1` give 8."
#[test]
fn bad_lines() {
    for text in ["T 01\n", "T  1\n"] {
        assert_eq!(next_call(text.as_bytes()), (Next::Bad, text.as_bytes()));
        assert_eq!(printed(&format!("O 3 1\n{text}T 1\n")), "O 3 1 0\nbad\n");
    }
}

/// It "starts with all words 0 and an empty list": not sound, so 3.
#[test]
fn before_the_first_open() {
    let input = "T 1\nL 0\nB 9999\nP 1\nS 1\nW 1\nO 0 1\nT 1\n";
    let wanted = "\
T 1 3 - 0/0 0/0
L 0 3 - 0/0 0/0
B 9999 3 - 0/0 0/0
P 1 3 - 0/0 0/0
S 1 3 - 0/0 0/0
W 1 3 - 0/0 0/0
O 0 1 1
T 1 3 - 0/0 0/0
";
    assert_eq!(printed(input), wanted);
}

/// "a refused open leaves the gate and list it had."
#[test]
fn refused_open_leaves_the_gate() {
    let input = "O 2 1\nT 1\nO 2 65\nO 1025 1\nO 9999 9999\nL 1\nO 2 1\nL 1\n";
    let wanted = "\
O 2 1 0
T 1 0 1/0 1/0 1/0
O 2 65 1
O 1025 1 1
O 9999 9999 1
L 1 0 1 1/0 1/0
O 2 1 0
L 1 6 - 0/0 1/0
";
    assert_eq!(printed(input), wanted);
}

/// Places, and stop marks: "ticket and region remain".
#[test]
fn places_and_stops() {
    let input = "O 4 1\nT 3\nT 1\nT 2\nP 3\nP 1\nP 2\nS 3\nS 3\nL 3\nT 3\nP 3\nL 1\nW 3\nW 3\nL 3\nP 3\nB 3\nP 1\nP 2\nT 5\nT 0\n";
    let wanted = "\
O 4 1 0
T 3 0 1/0 1/0 1/0
T 1 0 2/0 2/0 1/0
T 2 0 3/0 3/0 1/0
P 3 0 0 3/0 1/0
P 1 0 1 3/0 1/0
P 2 0 2 3/0 1/0
S 3 0 - 3/0 1/0
S 3 5 - 3/0 1/0
L 3 5 - 3/0 1/0
T 3 5 - 3/0 1/0
P 3 5 - 3/0 1/0
L 1 0 0 3/0 1/0
W 3 0 - 3/0 1/0
W 3 7 - 3/0 1/0
L 3 0 1 3/0 1/0
P 3 6 - 3/0 1/0
B 3 0 - 3/0 2/0
P 1 0 0 3/0 2/0
P 2 0 1 3/0 2/0
T 5 4 - 3/0 2/0
T 0 4 - 3/0 2/0
";
    assert_eq!(printed(input), wanted);
}

/// "Opening: ISSUE is 0/0, VALID is k/0, the count of colour 0 is k."
#[test]
fn opening_words() {
    let mut host = GateHost::default();
    assert_eq!(*host.words(), Words::ZERO);
    let open = compare::schedule::Call::Open(7, 3);
    assert_eq!(host.perform(open), Answer::Done);
    let words = host.words();
    assert_eq!((words.year, words.n, words.k), (1989, 7, 3));
    assert_eq!(words.issue, Ticket::new(0, 0));
    assert_eq!(words.valid, Ticket::new(3, 0));
    assert_eq!(words.counts[0], 3);
    assert!(words.counts[1..].iter().all(|&count| count == 0));
    assert_eq!(words.free[..3], [1, 2, 3]);
    assert!(words.free[3..].iter().all(|&slot| slot == 0));
    assert_eq!(*host.list(), PluginList::idle(7));
}

/// "a longer input prints only `long`": 65,536 bytes are read, one more is long.
#[test]
fn longest_input() {
    let input = "T 1\n".repeat(65_536 / 4);
    assert_eq!(printed(&input), "T 1 3 - 0/0 0/0\n".repeat(65_536 / 4));
    assert_eq!(printed(&format!("{input}T")), "long\n");
    assert_eq!(printed(&format!("{input}T 1\n")), "long\n");
    assert_eq!(printed(""), "");
    assert_eq!(printed("O 1 1"), "bad\n");
}
