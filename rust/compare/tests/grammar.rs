//! The grammar of schedules, and what the reader returns.

use compare::schedule::{next_call, Call, Next};

/// The call and the number of bytes that remain.
fn read(text: &str) -> (Next, usize) {
    let (next, rest) = next_call(text.as_bytes());
    assert!(text.as_bytes().ends_with(rest));
    (next, rest.len())
}

#[test]
fn letters() {
    assert_eq!(read("O 3 1\n"), (Next::Call(Call::Open(3, 1)), 0));
    assert_eq!(read("T 1\nL 1\n"), (Next::Call(Call::Take(1)), 4));
    assert_eq!(read("L 20\n"), (Next::Call(Call::Look(20)), 0));
    assert_eq!(read("B 300\n"), (Next::Call(Call::Leave(300)), 0));
    assert_eq!(read("P 9999\n"), (Next::Call(Call::Place(9999)), 0));
    assert_eq!(read("S 0\n"), (Next::Call(Call::Stop(0)), 0));
    assert_eq!(read("W 1\nrest"), (Next::Call(Call::Wake(1)), 4));
    assert_eq!(
        read("O 9999 9999\n"),
        (Next::Call(Call::Open(9999, 9999)), 0)
    );
    assert_eq!(read("O 0 0\n"), (Next::Call(Call::Open(0, 0)), 0));
}

#[test]
fn end_and_the_callers_own_buffer() {
    let buffer = b"T 1\nT 2\n";
    let (_, rest) = next_call(buffer);
    assert!(std::ptr::eq(rest, &buffer[4..]));
    let (_, rest) = next_call(rest);
    assert_eq!(next_call(rest), (Next::End, &buffer[8..]));
}

#[test]
fn no_lines_of_the_grammar() {
    for text in [
        "\n",
        " T 1\n",
        "T\n",
        "T \n",
        "T 1",
        "T 1 \n",
        "T 1\r\n",
        "T  1\n",
        "T\t1\n",
        "T1\n",
        "T 01\n",
        "T 00\n",
        "T 12345\n",
        "T 00001\n",
        "T -1\n",
        "T +1\n",
        "T 1a\n",
        "T 1 2\n",
        "t 1\n",
        "X 1\n",
        "A 1\n",
        "O 1\n",
        "O 1 \n",
        "O 1  1\n",
        "O  1 1\n",
        "O 1 1",
        "O 1 1 1\n",
        "O 01 1\n",
        "O 1 01\n",
        "O 12345 1\n",
        "O 1 12345\n",
        "O 1 1\r\n",
        "TT 1\n",
        "T",
        "T ",
        "O",
        "\0",
        "T 1\0\n",
        "T \u{661}\n",
    ] {
        assert_eq!(read(text), (Next::Bad, text.len()), "{text:?}");
    }
}

/// Every byte in each place of a line.
#[test]
fn one_byte_changed() {
    for at in 0..5 {
        for byte in 0..=255 {
            let mut line = *b"T 12\n";
            line[at] = byte;
            let good = match at {
                0 => b"TLBPSW".contains(&byte),
                1 => byte == b' ',
                2 => (b'1'..=b'9').contains(&byte),
                3 => byte.is_ascii_digit() || byte == b'\n',
                _ => byte == b'\n',
            };
            let read = matches!(next_call(&line).0, Next::Call(_));
            assert_eq!(read, good, "{at} {byte}");
        }
    }
}
