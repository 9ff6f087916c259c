//! Lines of the bench program: forms, columns, and trees beyond the limits of the calls.

use reference::text::{read, Line};

#[test]
fn commands() {
    assert_eq!(read(b"(add (1 (1) (2)))"), Line::Command(0, vec![0, 1, 2, 0, 1, 0, 0, 2, 0]));
    for (text, label) in [("9", 9), ("255", 255), ("256", 256), ("9999", 9_999), ("65529", 65_529), ("65535", 65_535)] {
        let listing = [(label / 256) as u8, (label % 256) as u8, 0];
        assert_eq!(read(format!("(drop ({text}))").as_bytes()), Line::Command(1, listing.to_vec()));
    }
    assert_eq!(read(b"(ask (0 (10 (513)) (4)))"), Line::Command(2, vec![0, 0, 2, 0, 10, 1, 2, 1, 0, 0, 4, 0]));
    let nine = format!("(ask (1{}))", " (1)".repeat(9));
    assert_eq!(read(b"(total)"), Line::Total);
    assert_eq!((Line::Total.packed(), Line::Total.padded()), (1_536, vec![0; 378]));
    assert_eq!(read(nine.as_bytes()), Line::Command(2, [vec![0, 1, 9], [0, 1, 0].repeat(9)].concat()));
}

#[test]
fn columns() {
    for (line, column) in [
        ("", 1),
        ("x", 1),
        ("(add", 5),
        ("(asd (1))", 4),
        ("(ask  (1))", 6),
        ("(ask (65536))", 11),
        ("(ask (65539))", 11),
        ("(ask (65540))", 11),
        ("(ask (6554)", 12),
        ("(ask (6560)x", 12),
        ("(ask (70000))", 11),
        ("(ask (99999))", 11),
        ("(ask (655350))", 12),
        ("(ask (123456))", 12),
        ("(ask (00))", 8),
        ("(ask (01))", 8),
        ("(ask ())", 7),
        ("(ask (1)", 9),
        ("(ask (1)))", 10),
        ("(ask (1(2)))", 8),
        ("(ask (1 (2) ))", 13),
        ("(ask (1 2))", 9),
        ("(ask (1))\r", 10),
        ("(t", 3),
        ("(tadd", 3),
        ("(tota", 6),
        ("(total", 7),
        ("(total )", 7),
        ("(totals)", 7),
        ("(total))", 8),
        ("(total) ", 8),
        ("(add)", 5),
    ] {
        assert_eq!(read(line.as_bytes()), Line::Form(column), "{line}");
    }
}

#[test]
fn lengths() {
    assert_eq!(read(&[b'('; 512]), Line::Form(2));
    assert_eq!(read(&[b'('; 513]), Line::Long);
    let deep = format!("(ask {}{})", "(1 ".repeat(125) + "(1", ")".repeat(126));
    assert_eq!(deep.len(), 509);
    assert!(matches!(read(deep.as_bytes()), Line::Command(2, listing) if listing.len() == 378));
}
