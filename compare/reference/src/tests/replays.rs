//! The replay file: the worked example and the rules for lines.

use crate::replay::replay;

fn gives(input: &str, output: &str) {
    let found = String::from_utf8(replay(input.as_bytes())).unwrap();
    assert_eq!(found, output, "for {input:?}");
}

const SETTINGS: &str = "power=-20\ncomponents=3\nvolume=1\n";

#[test]
fn worked_example() {
    gives(
        "power=-20\ncomponents=3\nvolume=1\nevent=read\nnonce=0102030405060708\nevent=write\ndata=0908\nreach=07\nevent=elapsed\ntenths=25\n",
        "answer=read\nbytes=010102030405060708\nanswer=refused\ncode=81\nanswer=elapsed\nnotes=0\nclock=2\n",
    );
}

#[test]
fn missing_lines() {
    gives("", "answer=malformed\nline=1\n");
    gives("power=0\n", "answer=malformed\nline=2\n");
    gives("power=0\ncomponents=0\n", "answer=malformed\nline=3\n");
    gives("power=0\ncomponents=0\nvolume=0", "answer=malformed\nline=3\n");
    gives(SETTINGS, "");
    gives(&format!("{SETTINGS}event=read\n"), "answer=malformed\nline=5\n");
    gives(&format!("{SETTINGS}event=read"), "answer=malformed\nline=4\n");
    gives(&format!("{SETTINGS}event=button\nevent=button"), "answer=button\nanswer=malformed\nline=5\n");
    gives(&format!("{SETTINGS}event=identifier\nr=\nid=\n"), "answer=malformed\nline=4\n");
    gives(&format!("{SETTINGS}\n"), "answer=malformed\nline=4\n");
}

#[test]
fn numbers() {
    for power in ["+1", "-0", "01", "", "-", "--1", " 1", "1 ", "1\r", "-01", "2147483648", "-2147483649", "0x1", "99999999999999999999", "1\0"] {
        gives(&format!("power={power}\n"), "answer=malformed\nline=1\n");
    }
    for power in ["-101", "21", "2147483647", "-2147483648"] {
        gives(&format!("power={power}\ncomponents=0\nvolume=0\n*"), "answer=refused\ncode=01\n");
    }
    for components in ["-1", "-0", "+1", "", "00", "4294967296"] {
        gives(&format!("power=0\ncomponents={components}\n"), "answer=malformed\nline=2\n");
    }
    for components in ["4", "256", "4294967295"] {
        gives(&format!("power=0\ncomponents={components}\nvolume=0\n"), "answer=refused\ncode=01\n");
    }
    for on in ["2", "", "00", "-1", "01"] {
        gives(&format!("{SETTINGS}event=pairing\non={on}\n"), "answer=malformed\nline=5\n");
    }
    gives(&format!("{SETTINGS}event=battery\nlevel=256\n"), "answer=refused\ncode=01\n");
    gives(&format!("{SETTINGS}event=battery\nlevel=3\n"), "answer=battery\n");
    gives(
        &format!("{SETTINGS}event=elapsed\ntenths=4294967295\n"),
        "answer=elapsed\nnotes=0\nclock=429496729\n",
    );
}

#[test]
fn hex() {
    for nonce in ["0", "0g", "0A", "FF", " 00", "00\r"] {
        gives(&format!("{SETTINGS}event=read\nnonce={nonce}\n"), "answer=malformed\nline=5\n");
    }
    gives(&format!("{SETTINGS}event=read\nnonce=\n"), "answer=refused\ncode=03\n");
    gives(&format!("{SETTINGS}event=write\ndata=\nreach=07\n"), "answer=refused\ncode=81\n");
    gives(&format!("{SETTINGS}event=write\ndata=\nreach=08\n"), "answer=refused\ncode=01\n");
    for reach in ["", "0", "7", "007", "0007", "0A", "0g", " 07", "07 ", "0x07"] {
        gives(&format!("{SETTINGS}event=write\ndata=\nreach={reach}\n"), "answer=malformed\nline=6\n");
    }
    gives(&format!("{SETTINGS}event=write\ndata=\n"), "answer=malformed\nline=6\n");
    gives(&format!("{SETTINGS}event=write\nreach=07\ndata=\n"), "answer=malformed\nline=5\n");
    gives(&format!("{SETTINGS}event=key\nbytes=\n"), "answer=refused\ncode=04\n");
    let long = "0".repeat(250);
    gives(&format!("{SETTINGS}event=read\nnonce={long}\n"), "answer=refused\ncode=03\n");
    gives(&format!("{SETTINGS}event=write\ndata={long}00\n"), "answer=malformed\nline=5\n");
}

#[test]
fn last_line_number() {
    let mut input = SETTINGS.to_string();
    let mut output = String::new();
    for _ in 4..=999_999 {
        input.push_str("event=button\n");
        output.push_str("answer=button\n");
    }
    assert!(replay(input.as_bytes()) == output.as_bytes());
    input.push_str("event=button\n");
    output.push_str("answer=malformed\nline=1000000\n");
    assert!(replay(input.as_bytes()) == output.as_bytes());
}
