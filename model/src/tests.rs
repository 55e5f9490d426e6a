//! Days worked by hand, wrong readings, and the points that the paper leaves open.
//! In the days and sheets here spaces stand for tabs.

use crate::script::timed;
use crate::text::{
    read_heartbeat, read_timecode, write_heartbeat, write_timecode, Heartbeat, LAST_FRAME,
};
use crate::{day, fast, generate, long};

/// The sheet of any bytes, by both programs.
fn sheet_of(input: &[u8]) -> String {
    let plain = day::sheet(input);
    let mut quick = Vec::new();
    fast::sheet(input, &mut quick).expect("a vector takes all bytes");
    assert_eq!(String::from_utf8_lossy(&plain), String::from_utf8_lossy(&quick));
    String::from_utf8(plain).expect("a sheet is plain text")
}

/// The sheet of a day, with spaces for tabs in both.
fn play(day: &str) -> String {
    sheet_of(day.replace(' ', "\t").as_bytes()).replace('\t', " ")
}

/// The day's sheet is the header and these lines.
pub fn expect(day: &str, sheet: &str) {
    assert_eq!(play(&timed(day)), format!("time server what\n{}", timed(sheet)));
}

/// The last line of the day's sheet.
fn expect_last(day: &str, line: &str) {
    let sheet = play(&timed(day));
    assert_eq!(sheet.lines().last(), Some(timed(line).trim_end()), "{sheet}");
}

/// The last line of the sheet of these bytes, as they are.
fn expect_bytes(input: &[u8], line: &str) {
    let sheet = sheet_of(input).replace('\t', " ");
    assert_eq!(sheet.lines().last(), Some(line), "{sheet}");
}

/// The sheet of each of these ends at some line with some refusal.
fn expect_refusals(inputs: &[(&str, u32, u32)]) {
    for (input, line, refusal) in inputs {
        expect_bytes(input.as_bytes(), &format!("line {line} refused-{refusal}"));
    }
}

const GROUP: &str = "period 2\nserver 1 10\nserver 2 20\n";
const READY: &str = "@0 start 1\n@0 ready 1\n@0 start 2\n@0 ready 2\n";
const READY_SHEET: &str = "@0 1 sync\n@0 1 backup\n@0 2 sync\n@0 2 backup\n";
/// Frames 4 to 8 of D1: 2 replies at 5, so it beats in odd frames.
const CHOICE_SHEET: &str = "@4 1 prospect\n@4 1 reveal\n@4 2 prospect\n@4 2 reveal\n\
    @5 1 backup\n@5 2 beat\n@7 2 beat\n@8 2 primary\n";

// Days worked by hand

#[test]
fn d1_whole() {
    let day = "period 2\nserver 1 10\nserver 2 20\n\
        00:00:00:00 start 1\n00:00:00:00 ready 1\n00:00:00:00 start 2\n00:00:00:00 ready 2\n\
        end 00:00:00:08\n";
    let sheet = "time server what\n\
        00:00:00:00 1 sync\n\
        00:00:00:00 1 backup\n\
        00:00:00:00 2 sync\n\
        00:00:00:00 2 backup\n\
        00:00:00:04 1 prospect\n\
        00:00:00:04 1 reveal\n\
        00:00:00:04 2 prospect\n\
        00:00:00:04 2 reveal\n\
        00:00:00:05 1 backup\n\
        00:00:00:05 2 beat\n\
        00:00:00:07 2 beat\n\
        00:00:00:08 2 primary\n";
    assert_eq!(play(day), sheet);
}

/// One frame after the beat of 7, which 1 hears at 8: its silence is out at 12.
#[test]
fn d2_crash_at_8() {
    expect(
        &format!("{GROUP}{READY}@8 crash 2\nend @20"),
        &format!(
            "{READY_SHEET}{CHOICE_SHEET}@8 2 down\n@12 1 prospect\n@12 1 reveal\n\
             @14 1 beat\n@16 1 beat\n@16 1 primary\n@18 1 beat\n@20 1 beat"
        ),
    );
}

/// In the frame of a beat, which 1 hears at 10: its silence is out at 14.
#[test]
fn d3_crash_at_9() {
    expect(
        &format!("{GROUP}{READY}@9 crash 2\nend @20"),
        &format!(
            "{READY_SHEET}{CHOICE_SHEET}@9 2 beat\n@9 2 down\n@14 1 prospect\n@14 1 reveal\n\
             @16 1 beat\n@18 1 beat\n@18 1 primary\n@20 1 beat"
        ),
    );
}

#[test]
fn d4_pass_to_the_lower() {
    expect(
        &format!("{GROUP}{READY}@8 pass 2 1\nend @20"),
        &format!(
            "{READY_SHEET}{CHOICE_SHEET}@8 2 pass\n@8 2 backup\n@9 1 prospect\n@9 1 beat\n\
             @11 1 beat\n@13 1 beat\n@13 1 primary\n@15 1 beat\n@17 1 beat\n@19 1 beat"
        ),
    );
}

#[test]
fn d5_tie() {
    expect(
        &format!("period 2\nserver 1 20\nserver 2 20\n{READY}end @12"),
        &format!("{READY_SHEET}{CHOICE_SHEET}@9 2 beat\n@11 2 beat"),
    );
}

/// 3 replies once at 7, to the reveals of 2 and 1, and once at 8, to the second one of 2, which
/// hears the first reply then.
#[test]
fn d6_three() {
    expect(
        "period 3\nserver 1 10\nserver 2 20\nserver 3 30\n\
         @0 start 1\n@0 ready 1\n@0 start 2\n@0 ready 2\n@0 start 3\n@0 ready 3\nend @16",
        "@0 1 sync\n@0 1 backup\n@0 2 sync\n@0 2 backup\n@0 3 sync\n@0 3 backup\n\
         @6 1 prospect\n@6 1 reveal\n@6 2 prospect\n@6 2 reveal\n@6 3 prospect\n@6 3 reveal\n\
         @7 1 backup\n@7 2 backup\n@7 2 prospect\n@7 2 reveal\n@7 3 beat\n\
         @8 2 backup\n@8 3 beat\n@11 3 beat\n@12 3 primary\n@14 3 beat",
    );
}

#[test]
fn d7_period_and_servers() {
    expect("period 2\nserver 1 1\nserver 2 2\nend @0", "");
    expect("period 2\nserver 1 1\nserver 2 2\nserver 3 3\nend @0", "line 5 refused-7");
    expect("period 2\nserver 1 1\nserver 2 2\nserver 3 3\n@0 start 1", "line 5 refused-7");
}

#[test]
fn d8_priority() {
    expect("period 2\nserver 1 255\nend @0", "");
    expect("period 2\nserver 1 256\nend @0", "line 2 refused-2");
}

#[test]
fn d9_last_timecode() {
    assert_eq!(read_timecode(b"23:59:59:24"), Ok(2_159_999));
    assert_eq!(read_timecode(b"23:59:59:25"), Err(3));
    assert_eq!(write_timecode(2_159_999), Ok(String::from("23:59:59:24")));
    assert_eq!(write_timecode(2_160_000), Err(3));
    expect("period 2\nserver 1 1\nend 23:59:59:24", "");
    expect("period 2\nserver 1 1\nend 23:59:59:25", "line 3 refused-3");
}

#[test]
fn d10_heartbeat_line() {
    let read = read_heartbeat(b"0\t20\t2\t7\n").expect("a heartbeat");
    assert_eq!(read, Heartbeat { bs: 0, priority: 20, tie_breaker: 2, reveal: true });
    assert_eq!(write_heartbeat(&read), Ok(String::from("0\t20\t2\t1\n")));
}

#[test]
fn d11_empty_input() {
    assert_eq!(sheet_of(b""), "time\tserver\twhat\nline\t1\trefused-4\n");
}

// Wrong readings

#[test]
fn a_higher_server_that_becomes_ready_does_not_take_over() {
    expect(
        &format!("{GROUP}@0 start 1\n@0 ready 1\n@9 start 2\n@9 ready 2\nend @20"),
        "@0 1 sync\n@0 1 backup\n@4 1 prospect\n@4 1 reveal\n@6 1 beat\n@8 1 beat\n@8 1 primary\n\
         @9 2 sync\n@9 2 backup\n@10 1 beat\n@12 1 beat\n@14 1 beat\n@16 1 beat\n@18 1 beat\n\
         @20 1 beat",
    );
}

#[test]
fn hearing_comes_before_timers() {
    // the beat of 9 is lost; the one of 11 comes in the frame in which silence runs out
    expect(
        &format!("{GROUP}{READY}@9 cut 2 1\n@11 mend 2 1\nend @14"),
        &format!(
            "{READY_SHEET}{CHOICE_SHEET}@9 2 beat\n@9 2 cut\n@11 2 beat\n@11 2 mended\n@13 2 beat"
        ),
    );
    // and without the mend it does run out
    expect_last(&format!("{GROUP}{READY}@9 cut 2 1\nend @12"), "@12 1 reveal");
}

#[test]
fn a_beat_is_heard_in_the_frame_after_it_whatever_the_table_order() {
    // D1 with the priorities the other way round, and the server lines too
    for group in ["server 1 20\nserver 2 10\n", "server 2 10\nserver 1 20\n"] {
        expect(
            &format!("period 2\n{group}{READY}end @8"),
            &format!(
                "{READY_SHEET}@4 1 prospect\n@4 1 reveal\n@4 2 prospect\n@4 2 reveal\n\
                 @5 1 beat\n@5 2 backup\n@7 1 beat\n@8 1 primary"
            ),
        );
    }
}

#[test]
fn a_prospect_goes_on_beating() {
    // beat at 6 and 8 while prospect; the beat at 8 comes before `primary`
    expect(
        "period 2\nserver 5 0\n@0 start 5\n@0 ready 5\nend @8",
        "@0 5 sync\n@0 5 backup\n@4 5 prospect\n@4 5 reveal\n@6 5 beat\n@8 5 beat\n@8 5 primary",
    );
}

#[test]
fn a_reveal_does_not_move_a_lower_server() {
    // 1 is ready at 1, so it is still backup when the reveal of 4 comes
    expect(
        &format!("{GROUP}@0 start 2\n@0 ready 2\n@1 start 1\n@1 ready 1\nend @7"),
        "@0 2 sync\n@0 2 backup\n@1 1 sync\n@1 1 backup\n@4 2 prospect\n@4 2 reveal\n@6 2 beat",
    );
    // but it moves a higher one
    expect(
        &format!("{GROUP}@0 start 1\n@0 ready 1\n@1 start 2\n@1 ready 2\nend @6"),
        "@0 1 sync\n@0 1 backup\n@1 2 sync\n@1 2 backup\n@4 1 prospect\n@4 1 reveal\n\
         @5 2 prospect\n@5 2 reveal\n@6 1 backup",
    );
}

// Points left open

#[test]
fn reading_1_the_word_of_a_line() {
    let head = "period 2\nserver 1 1\n";
    for (line, refusal) in [
        ("foo start 1", 3),
        ("foo", 1),
        ("start", 1),
        ("start 1", 1),
        ("@0 begin 1", 1),
        ("@0 end 1", 1),
        ("@0 period 1", 1),
        ("@0 Start 1", 1),
        ("period", 1),
        ("end", 1),
        ("server 1", 1),
        ("foo bar 0", 1),
        ("period start 1", 1),
    ] {
        expect_last(&format!("{head}{line}\nend @0"), &format!("line 3 refused-{refusal}"));
    }
}

#[test]
fn reading_2_every_tab_parts_two_fields() {
    expect_refusals(&[
        ("period\t\n", 1, 2),
        ("period\t5\t\n", 1, 1),
        ("\n", 1, 1),
        ("\t\n", 1, 1),
        ("\tperiod\t5\n", 1, 1),
        ("period\t\t5\n", 1, 1),
        ("period\t5\nserver\t\t1\n", 2, 2),
        ("period\t5\nserver\t1\t\n", 2, 2),
        ("period\t5\nserver\t1\t1\n00:00:00:00\tstart\t\n", 3, 2),
        ("period\t5\nserver\t1\t1\n00:00:00:00\tstart\t1\t\n", 3, 1),
        ("period\t5\nserver\t1\t1\n\tstart\t1\n", 3, 3),
        ("period\t5\nserver\t1\t1\nend\t\n", 3, 3),
    ]);
}

#[test]
fn reading_3_the_order_of_tests() {
    let head = "period 2\nserver 1 1\nserver 2 2\n";
    for (line, refusal) in [
        // form before fields
        ("24:00:00:00 start", 1),
        ("@0 pass 0", 1),
        ("server 0 1 1", 1),
        // fields from left to right
        ("24:00:00:00 start 0", 3),
        ("@0 cut 0 70000", 2),
        ("24:00:00:00 cut 0 0", 3),
        // fields before places
        ("period 1", 2),
        ("period 2", 4),
        ("server 1 1", 5),
        ("server 1 300", 2),
    ] {
        expect_last(&format!("{head}{line}\nend @0"), &format!("line 4 refused-{refusal}"));
        // after `end` all that is not 1, 2 or 3 is 4
        let refusal = refusal.min(4);
        expect_last(&format!("{head}end @0\n{line}"), &format!("line 5 refused-{refusal}"));
    }
    for line in ["@0 start 1", "@0 start 9", "@0 cut 1 1", "end @0", "server 3 3"] {
        expect_last(&format!("{head}end @1\n{line}"), "line 5 refused-4");
    }
    // 5 before 6
    let mut full = String::from("period 16\n");
    for identity in 1..=16 {
        full += &format!("server {identity} 0\n");
    }
    expect(&format!("{full}end @0"), "");
    expect_last(&format!("{full}server 16 0\nend @0"), "line 18 refused-5");
    expect_last(&format!("{full}server 17 0\nend @0"), "line 18 refused-6");
    expect_last(&format!("{full}server 17 256\nend @0"), "line 18 refused-2");
}

#[test]
fn reading_3_the_limit_of_lines() {
    let mut text = b"period\t2\nserver\t1\t1\n".to_vec();
    for _ in 3..=65_534 {
        text.extend_from_slice(b"00:00:00:00\tready\t1\n");
    }
    let with = |more: &str| [text.as_slice(), more.replace(' ', "\t").as_bytes()].concat();
    expect_bytes(&with("end 00:00:00:00\n"), "00:00:00:00 1 refused-14");
    expect_bytes(&with(""), "line 65535 refused-4");
    expect_bytes(&with("00:00:00:00 ready 1\n"), "line 65536 refused-4");
    let full = |more: &str| with(&format!("00:00:00:00 ready 1\n{more}"));
    expect_bytes(&full("end 00:00:00:00\n"), "line 65536 refused-4");
    expect_bytes(&full("00:00:00:00 ready 9\n"), "line 65536 refused-4");
    expect_bytes(&full("end 24:00:00:00\n"), "line 65536 refused-3");
    expect_bytes(&full("server 0 0\n"), "line 65536 refused-2");
    expect_bytes(&full("end\n"), "line 65536 refused-1");
    expect_bytes(&full("end 00:00:00:00"), "line 65536 refused-1");
    expect_bytes(&full("end 00:00:00:00\nend 00:00:00:00\n"), "line 65536 refused-4");
    expect_bytes(&with("end 00:00:00:00\nend 00:00:00:00\n"), "line 65536 refused-4");
}

#[test]
fn reading_4_where_entries_begin() {
    expect("@0 start 1\nperiod 2", "line 1 refused-4");
    expect("end @0", "line 1 refused-4");
    expect("server 1 1", "line 1 refused-4");
    expect("period 2\n@0 start 1", "line 2 refused-6");
    expect("period 2\nend @0", "line 2 refused-6");
    expect("period 2\nperiod 2", "line 2 refused-4");
    expect("period 2\nserver 1 1\nperiod 2", "line 3 refused-4");
    expect("period 2\nserver 1 1\n@0 start 1\nserver 2 2", "@0 1 sync\nline 4 refused-4");
    // 7 before 8
    let three = "period 2\nserver 1 1\nserver 2 2\nserver 3 3\n";
    expect(&format!("{three}@0 start 9"), "line 5 refused-7");
    expect(&format!("{three}@0 cut 1 1"), "line 5 refused-7");
    expect(&format!("{three}@0 start 0"), "line 5 refused-2");
}

#[test]
fn reading_5_the_last_line_feed() {
    expect_refusals(&[
        ("period\t2\nserver\t1\t1\nend\t00:00:00:00", 3, 1),
        ("period", 1, 1),
        ("period\t2\nserver\t1\t1\nend\t24:00:00:00", 3, 1),
        ("period\t2\nserver\t1\t1\nend\t00:00:00:00\nx", 4, 1),
        ("period\t2\n", 2, 4),
        ("period\t2\nserver\t1\t1\n", 3, 4),
        ("period\t2\nserver\t1\t1\n00:00:00:01\tready\t1\n", 4, 4),
    ]);
}

#[test]
fn reading_6_a_refused_end() {
    let head = "period 2\nserver 1 1\n@5 start 1\nend @4\n";
    let sheet = "@5 1 sync\n@5 0 refused-11\n";
    expect(&format!("{head}end @5"), sheet);
    expect(
        &format!("{head}@6 ready 1\nend @10"),
        &format!("{sheet}@6 1 backup\n@10 1 prospect\n@10 1 reveal"),
    );
    expect(&format!("{head}end @3\nend @7"), &format!("{sheet}@5 0 refused-11"));
    expect(head, &format!("{sheet}line 5 refused-4"));
    expect(&format!("{head}period 2\nend @9"), &format!("{sheet}line 5 refused-4"));
    expect(&format!("{head}server 2 2\nend @9"), &format!("{sheet}line 5 refused-4"));
}

#[test]
fn reading_7_what_was_printed_stands() {
    expect(
        "period 2\nserver 1 1\n@1 start 1\n@2 ready 1\n@6 crash 1\nend @7\n@7 restart 1",
        "@1 1 sync\n@2 1 backup\n@6 1 prospect\n@6 1 reveal\n@6 1 down\nline 7 refused-4",
    );
}

#[test]
fn reading_8_identities_before_the_advance() {
    // the line refused with 8 does not advance to frame 9
    expect(
        "period 2\nserver 1 1\n@0 start 1\n@0 ready 1\n@9 start 2\nend @9",
        "@0 1 sync\n@0 1 backup\nline 5 refused-8",
    );
    // 8 before 11 and before 12
    expect("period 2\nserver 1 1\n@5 start 1\n@4 start 2", "@5 1 sync\nline 4 refused-8");
    expect(&format!("{GROUP}@5 crash 1\n@5 pass 1 1"), "@5 1 down\nline 5 refused-8");
    // 11 before 12 to 15, and nothing is done
    expect(
        "period 2\nserver 1 1\n@5 crash 1\n@4 restart 1\n@4 start 1\nend @5",
        "@5 1 down\n@5 1 refused-11\n@5 1 refused-11",
    );
}

#[test]
fn reading_11_identity_nought_and_unknown() {
    for (line, refusal) in [
        ("@0 start 0", 2),
        ("@0 start 65536", 2),
        ("@0 start 65535", 8),
        ("@0 cut 0 1", 2),
        ("@0 cut 1 0", 2),
        ("@0 cut 9 0", 2),
        ("@0 cut 0 9", 2),
        ("@0 cut 1 9", 8),
        ("@0 cut 9 1", 8),
        ("@0 cut 9 9", 8),
        ("@0 cut 0 0", 2),
        ("@0 pass 2 2", 8),
        ("@0 mend 1 1", 8),
    ] {
        expect(&format!("{GROUP}{line}\nend @0"), &format!("line 4 refused-{refusal}"));
    }
}

#[test]
fn reading_19_one_note_for_each_heartbeat() {
    // both are primary at 8; what 1 sends in that frame is a beat and a pass
    expect(
        &format!("{GROUP}@0 cut 1 2\n@0 cut 2 1\n{READY}@8 mend 1 2\n@8 pass 1 2\nend @9"),
        &format!(
            "@0 1 cut\n@0 2 cut\n{READY_SHEET}\
             @4 1 prospect\n@4 1 reveal\n@4 2 prospect\n@4 2 reveal\n@6 1 beat\n@6 2 beat\n\
             @8 1 beat\n@8 1 primary\n@8 2 beat\n@8 2 primary\n\
             @8 1 mended\n@8 1 pass\n@8 1 backup\n@9 2 lower\n@9 2 lower"
        ),
    );
}

#[test]
fn reading_20_the_end_of_a_frame() {
    let chosen = format!("{READY_SHEET}{CHOICE_SHEET}");
    // a link cut and mended in one frame is whole: 1 hears the beat of 9 and is quiet to 14
    expect(
        &format!("{GROUP}{READY}@9 cut 2 1\n@9 mend 2 1\n@9 crash 2\nend @13"),
        &format!("{chosen}@9 2 beat\n@9 2 cut\n@9 2 mended\n@9 2 down"),
    );
    // cut in the frame of the beat, the link does not carry it: silence since 8
    expect(
        &format!("{GROUP}{READY}@9 cut 2 1\n@9 crash 2\nend @12"),
        &format!("{chosen}@9 2 beat\n@9 2 cut\n@9 2 down\n@12 1 prospect\n@12 1 reveal"),
    );
    // cut in the frame after, too late
    expect(
        &format!("{GROUP}{READY}@10 cut 2 1\n@10 crash 2\nend @14"),
        &format!("{chosen}@9 2 beat\n@10 2 cut\n@10 2 down\n@14 1 prospect\n@14 1 reveal"),
    );
    // the pass is heard though its sender crashed and is ready again
    expect(
        &format!(
            "{GROUP}{READY}@8 pass 2 1\n@8 crash 2\n@8 restart 2\n@8 start 2\n@8 ready 2\nend @9"
        ),
        &format!(
            "{chosen}@8 2 pass\n@8 2 backup\n@8 2 down\n@8 2 idle\n@8 2 sync\n@8 2 backup\n\
             @9 1 prospect\n@9 1 beat"
        ),
    );
    // a server that became ready in the frame of the pass hears it
    expect(
        &format!("{GROUP}{READY}@7 unready 1\n@8 pass 2 1\n@8 ready 1\nend @9"),
        &format!(
            "{READY_SHEET}@4 1 prospect\n@4 1 reveal\n@4 2 prospect\n@4 2 reveal\n@5 1 backup\n\
             @5 2 beat\n@7 2 beat\n@7 1 sync\n@8 2 primary\n@8 2 pass\n@8 2 backup\n@8 1 backup\n\
             @9 1 prospect\n@9 1 beat"
        ),
    );
}

#[test]
fn reading_21_carriage_returns_and_timecode_digits() {
    expect_refusals(&[
        ("period\t2\r\n", 1, 2),
        ("period\r\t2\n", 1, 1),
        ("period\t2\nserver\t1\t1\r\n", 2, 2),
        ("period\t2\nserver\t1\t1\nend\t00:00:00:00\r\n", 3, 3),
        ("\r\n", 1, 1),
    ]);
    assert_eq!(read_timecode(b"00:00:00:09"), Ok(9));
    assert_eq!(read_timecode(b"0:0:0:9"), Err(3));
}

// The rest of the rules

#[test]
fn several_passes_heard_in_one_frame() {
    // three alone, all primary at 12; 1 hears beat and pass of 3, then beat and pass of 2
    expect_last(
        "period 3\nserver 3 30\nserver 1 10\nserver 2 20\n\
         @0 cut 1 2\n@0 cut 1 3\n@0 cut 2 1\n@0 cut 2 3\n@0 cut 3 1\n@0 cut 3 2\n\
         @0 start 1\n@0 ready 1\n@0 start 2\n@0 ready 2\n@0 start 3\n@0 ready 3\n\
         @12 pass 1 2\n@12 mend 2 1\n@12 mend 3 1\n@12 pass 2 1\n@12 pass 3 1\nend @12",
        "@12 3 backup",
    );
    let sheet = play(&timed(
        "period 3\nserver 3 30\nserver 1 10\nserver 2 20\n\
         @0 cut 1 2\n@0 cut 1 3\n@0 cut 2 1\n@0 cut 2 3\n@0 cut 3 1\n@0 cut 3 2\n\
         @0 start 1\n@0 ready 1\n@0 start 2\n@0 ready 2\n@0 start 3\n@0 ready 3\n\
         @12 pass 1 2\n@12 mend 2 1\n@12 mend 3 1\n@12 pass 2 1\n@12 pass 3 1\nend @13",
    ));
    let (_, after) = sheet.split_once("00:00:00:12 3 backup\n").expect("the last pass");
    assert_eq!(
        after,
        timed("@13 1 prospect\n@13 1 beat\n@13 1 backup\n@13 1 prospect\n@13 1 beat")
    );
}

#[test]
fn crossing_passes() {
    // both become prospect with a plain beat; the lower gives way in the next frame
    expect(
        &format!(
            "{GROUP}@0 cut 1 2\n@0 cut 2 1\n{READY}\
             @9 mend 1 2\n@9 mend 2 1\n@9 pass 1 2\n@9 pass 2 1\nend @14"
        ),
        &format!(
            "@0 1 cut\n@0 2 cut\n{READY_SHEET}\
             @4 1 prospect\n@4 1 reveal\n@4 2 prospect\n@4 2 reveal\n@6 1 beat\n@6 2 beat\n\
             @8 1 beat\n@8 1 primary\n@8 2 beat\n@8 2 primary\n\
             @9 1 mended\n@9 2 mended\n@9 1 pass\n@9 1 backup\n@9 2 pass\n@9 2 backup\n\
             @10 1 prospect\n@10 1 beat\n@10 2 prospect\n@10 2 beat\n@11 1 backup\n\
             @12 2 beat\n@14 2 beat\n@14 2 primary"
        ),
    );
}

#[test]
fn a_pass_to_nobody_who_hears() {
    // 1 is down: the passer hears nothing and comes back
    expect(
        &format!("{GROUP}{READY}@8 crash 1\n@8 pass 2 1\nend @16"),
        &format!(
            "{READY_SHEET}{CHOICE_SHEET}@8 1 down\n@8 2 pass\n@8 2 backup\n\
             @12 2 prospect\n@12 2 reveal\n@14 2 beat\n@16 2 beat\n@16 2 primary"
        ),
    );
}

#[test]
fn two_primaries_heal() {
    expect_last(
        &format!("{GROUP}@0 cut 1 2\n@0 cut 2 1\n{READY}@9 mend 2 1\nend @10"),
        "@10 2 beat",
    );
    // 1 hears the beat of 10 and gives way
    expect_last(
        &format!("{GROUP}@0 cut 1 2\n@0 cut 2 1\n{READY}@9 mend 2 1\nend @11"),
        "@11 1 backup",
    );
    // 2 hears the lower one and stays
    expect_last(
        &format!("{GROUP}@0 cut 1 2\n@0 cut 2 1\n{READY}@9 mend 1 2\nend @11"),
        "@11 2 lower",
    );
}

#[test]
fn state_refusals() {
    expect(
        &format!(
            "{GROUP}@1 ready 1\n@1 unready 1\n@1 pass 1 2\n@1 restart 1\n@1 start 1\n@1 start 1\n\
             @1 unready 1\n@1 ready 1\n@1 ready 1\n@1 start 1\n@1 pass 1 2\n\
             @2 crash 1\n@2 crash 1\n@2 start 1\n@2 ready 1\n@2 unready 1\n@2 pass 1 2\n\
             @2 cut 1 2\n@2 cut 1 2\n@2 mend 2 1\n@2 mend 1 2\n@2 mend 1 2\n@2 restart 1\n\
             @2 restart 1\n@1 crash 1\nend @2"
        ),
        "@1 1 refused-14\n@1 1 refused-14\n@1 1 refused-14\n@1 1 refused-13\n@1 1 sync\n\
         @1 1 refused-14\n@1 1 refused-14\n@1 1 backup\n@1 1 refused-14\n@1 1 refused-14\n\
         @1 1 refused-14\n\
         @2 1 down\n@2 1 refused-12\n@2 1 refused-12\n@2 1 refused-12\n@2 1 refused-12\n\
         @2 1 refused-12\n\
         @2 1 cut\n@2 1 refused-15\n@2 2 refused-15\n@2 1 mended\n@2 1 refused-15\n@2 1 idle\n\
         @2 1 refused-13\n@2 1 refused-11",
    );
    // the advance stands before a refusal of the state
    expect(
        "period 2\nserver 1 1\n@0 start 1\n@0 ready 1\n@4 restart 1\nend @4",
        "@0 1 sync\n@0 1 backup\n@4 1 prospect\n@4 1 reveal\n@4 1 refused-13",
    );
}

#[test]
fn length_of_lines() {
    let digits = |length: usize| {
        let mut line = b"period\t2\nserver\t1\t1\n00:00:00:00\tstart\t".to_vec();
        line.extend(vec![b'1'; length - 18]);
        line.push(b'\n');
        line
    };
    expect_bytes(&digits(64), "line 3 refused-2");
    expect_bytes(&digits(65), "line 3 refused-1");
    expect_bytes(&[0; 64], "line 1 refused-1");
    expect_bytes(b"period\t\x002\n", "line 1 refused-2");
}

#[test]
fn numbers() {
    for period in ["1", "0", "02", "251", "+5", "-5", "5.", "4294967298", "2\0", "٢"] {
        expect(&format!("period {period}"), "line 1 refused-2");
    }
    for period in ["2", "250"] {
        expect(&format!("period {period}"), "line 2 refused-4");
    }
    for server in ["0 1", "65536 1", "01 1", "1 256", "1 00", "1 -0"] {
        expect(&format!("period 2\nserver {server}"), "line 2 refused-2");
    }
    for server in ["1 0", "65535 255"] {
        expect(&format!("period 2\nserver {server}\nend @0"), "");
    }
}

#[test]
fn timecodes() {
    for frame in (0..=LAST_FRAME).step_by(7).chain([LAST_FRAME]) {
        let text = write_timecode(frame).expect("in the day");
        assert_eq!(read_timecode(text.as_bytes()), Ok(frame));
    }
    for text in [
        "24:00:00:00",
        "00:60:00:00",
        "00:00:60:00",
        "00:00:00:25",
        "00:00:00",
        "00:00:00:0",
        "00:00:00:000",
        "0:00:00:00",
        "00.00:00:00",
        "00:00:00;00",
        "a0:00:00:00",
        "",
        "+1:00:00:00",
    ] {
        assert_eq!(read_timecode(text.as_bytes()), Err(3), "{text}");
    }
}

#[test]
fn heartbeat_lines() {
    let reads = |text: &str| read_heartbeat(text.replace(' ', "\t").as_bytes());
    assert!(reads("65535 255 65535 255\n").is_ok());
    assert_eq!(reads("0 0 1 0\n").map(|heartbeat| heartbeat.reveal), Ok(false));
    for text in ["", "0 0 1 0", "0 0 1\n", "0 0 1 0 0\n", "0 0 1 0\n\n", "\n", "0 0 1 0\nx"] {
        assert_eq!(reads(text), Err(1), "{text:?}");
    }
    for text in [
        "65536 0 1 0\n",
        "0 256 1 0\n",
        "0 0 0 0\n",
        "0 0 65536 0\n",
        "0 0 1 256\n",
        "00 0 1 0\n",
        "0 0 1 01\n",
        "0 0 1 \n",
        " 0 1 0\n",
        "0 0 1 0\r\n",
    ] {
        assert_eq!(reads(text), Err(2), "{text:?}");
    }
    let long = |length: usize| format!("{}\t0\t1\t0\n", "1".repeat(length - 6));
    assert_eq!(read_heartbeat(long(64).as_bytes()), Err(2));
    assert_eq!(read_heartbeat(long(65).as_bytes()), Err(1));
    let nobody = Heartbeat { bs: 0, priority: 0, tie_breaker: 0, reveal: false };
    assert_eq!(write_heartbeat(&nobody), Err(2));
}

// The generators

#[test]
fn the_two_programs_agree_and_every_refusal_occurs() {
    let mut seen = [false; 16];
    for seed in 1..=600 {
        let sheet = sheet_of(&generate::day(seed));
        for line in sheet.lines() {
            if let Some((_, number)) = line.split_once("refused-") {
                seen[number.parse::<usize>().expect("a number")] = true;
            }
        }
    }
    for refusal in (1..=8).chain(11..=15) {
        assert!(seen[refusal], "no day gets {refusal}");
    }
    for refusal in [0, 9, 10] {
        assert!(!seen[refusal], "a day gets {refusal}");
    }
}

#[test]
fn full_days_are_at_the_limit() {
    for turn in 1..=8 {
        let day = generate::day(997 * turn);
        let lines = day.iter().filter(|&&byte| byte == b'\n').count();
        assert!((65_535..=65_538).contains(&lines), "{lines}");
        sheet_of(&day);
    }
}

#[test]
fn long_days_reach_the_last_frame() {
    for (servers, period, gap) in [(1, 2, 5000), (2, 2, 5000), (16, 16, 5000), (16, 250, 33)] {
        let day = long::long_day(servers, period, gap);
        let lines = day.iter().filter(|&&byte| byte == b'\n').count();
        assert!(lines <= 65_535);
        assert!(day.ends_with(b"\nend\t23:59:59:24\n"));
        assert!(!sheet_of(&day).contains("line\t"));
    }
}
