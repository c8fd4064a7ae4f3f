//! The listing program's text, by document 01's rules.
use reference::listing::{listing, words};

const HEAD: &str = "bools=1\nints=0\nstatements=1\n";

fn unread(text: &str) {
    assert_eq!(listing(text.as_bytes()), "answer=unread\n", "{text:?}");
}

#[test]
fn words_in_order() {
    let text = "bools=1\nints=1\nint=0,-2\nint=2147483647\nstatements=-2147483648\nstatement=1\nstatement=2,3\n";
    assert_eq!(words(text.as_bytes()), Some(vec![1, 1, 0, -2, 2147483647, -2147483648, 1, 2, 3]));
}

#[test]
fn counts_are_left_to_the_call() {
    assert_eq!(listing(b"bools=0\nints=1\nstatements=0\n"), "answer=refused,3\n");
    assert_eq!(listing(b"bools=0\nints=0\nint=0,0,0\nstatements=0\n"), "answer=refused,3\n");
    assert_eq!(listing(b"bools=0\nints=0\nstatements=1\n"), "answer=refused,3\n");
    assert_eq!(listing(b"bools=513\nints=0\nstatements=0\n"), "answer=refused,4\n");
}

#[test]
fn numbers_of_another_form() {
    for number in [
        "-0",
        "00",
        "01",
        "-01",
        "+1",
        " 1",
        "1 ",
        "",
        "-",
        "1.0",
        "0x1",
        "2147483648",
        "-2147483649",
        "99999999999999999999",
    ] {
        unread(&format!("{HEAD}statement=1,11,{number}\n"));
        unread(&format!("bools={number}\nints=0\nstatements=0\n"));
    }
    assert!(listing(format!("{HEAD}statement=1,11,-1\n").as_bytes()) == "answer=refused,6\n");
}

#[test]
fn lines_of_another_form() {
    let texts = [
        "",
        "\n",
        "bools=0\n",
        "bools=0\nints=0\n",
        "bools=0\nints=0\nstatements=0",
        "bools=0\nints=0\nstatements=0\n\n",
        "\nbools=0\nints=0\nstatements=0\n",
        "bools=0\r\nints=0\r\nstatements=0\r\n",
        "bools=0,0\nints=0\nstatements=0\n",
        "bools=0\nints=0,1\nstatements=0\n",
        "bools=0\nints=0\nstatements=0,1\n",
        "ints=0\nbools=0\nstatements=0\n",
        "bools=0\nints=0\nstatements=0\nint=0,0,1\n",
        "bools=0\nints=0\nint=\nstatements=0\n",
        "Bools=0\nints=0\nstatements=0\n",
        "bools=0\nints=0\nstatements=0\nstatement=\n",
        "bools=0\nints=0\nstatements=0\nstatement=1,\n",
        "bools=0;ints=0;statements=0\n",
        "bools =0\nints=0\nstatements=0\n",
        "bools=0\nints=0\nstatements=0\nmore=1\n",
        "bools=0\nints=0\nstatement=1\nstatements=0\n",
    ];
    texts.iter().for_each(|text| unread(text));
}

/// A well-formed text of that many bytes, of far more words than a set may have.
fn long(length: usize) -> String {
    let mut text = format!("{HEAD}statement=1");
    while text.len() + 3 <= length {
        text += ",1";
    }
    if text.len() + 2 == length {
        text += "0";
    }
    text + "\n"
}

#[test]
fn text_of_65536_bytes() {
    let (at, past) = (long(65536), long(65537));
    assert_eq!((at.len(), past.len()), (65536, 65537));
    assert_eq!(listing(at.as_bytes()), "answer=refused,2\n");
    assert_eq!(listing(past.as_bytes()), "answer=unread\n");
}
