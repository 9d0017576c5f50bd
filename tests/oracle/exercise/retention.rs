//! The sections on retention years (document 02, Req 06). What the sentences of Req 06 decide is stated by hand, beside the driver's reading of them.
use super::{adding, cuts, damages, nth, read, search_lines, set_stages, v, with, File, Fixed, ONE};
use crate::text::bytes;

pub fn sections(f: &mut Fixed) {
    which_may_go(f);
    order(f);
    whole_keys(f);
    single_slots(f);
    overwrites(f);
    not_asked(f);
    dead_slots(f);
    compactions(f);
    written(f);
    years_of_files(f);
    versions(f);
    spoilt(f);
    reading_refusals(f);
    older_files(f);
}

/// 21, and all stays as it was.
fn kept(f: &mut Fixed, line: impl Into<String>) {
    let before = f.driver.clone().answer(b"dump").text().to_string();
    f.told(line, "refused 21");
    f.stated("dump", &before);
}

/// A dump whose years are stated.
fn dump_years(f: &mut Fixed, years: &[u16]) {
    let answer = f.either("dump");
    let stated: String = years.iter().map(|year| format!("{year:04x}")).collect();
    assert_eq!(answer.split(' ').nth(26), Some(stated.as_str()), "the years");
}

/// Slots of an index of four entries at 4 bits, under these keys (none: unkeyed) and with these years, and room for `more`.
fn slots(f: &mut Fixed, slots: &[(Option<u64>, u16)], more: usize) {
    f.lend(slots.len() + more, 3);
    f.asks(&["new 4 1", "bits 4"]);
    for (slot, (key, year)) in slots.iter().enumerate() {
        let w = nth(4, slot as u64);
        let line = key.map_or(format!("add {w} {year:x}"), |key| format!("add_multi {key:x} {w} {year:x}"));
        f.stated(line, &format!("slot {slot:x}"));
    }
}

fn set_years(f: &mut Fixed, years: &[u16]) {
    for (slot, year) in years.iter().enumerate() {
        f.ask(format!("set years {slot:x} {year:x}"));
    }
}

const YEAR: u16 = 2026;

/// A year, a present year, and whether a slot of that year may go then: "0 is kept for good, 1 is no duty, any other the first year in which it may go".
const WHICH: [(u16, u16, bool); 37] = [
    (0, 0, false),
    (0, 1, false),
    (0, 2, false),
    (0, YEAR, false),
    (0, 65535, false),
    (1, 0, true),
    (1, 1, true),
    (1, 2, true),
    (1, 65535, true),
    (2, 0, false),
    (2, 1, false),
    (2, 2, true),
    (2, 3, true),
    (2, 65535, true),
    (3, 2, false),
    (3, 3, true),
    (YEAR, 0, false),
    (YEAR, 1, false),
    (YEAR, YEAR - 1, false),
    (YEAR, YEAR, true),
    (YEAR, YEAR + 1, true),
    (YEAR, 65535, true),
    // Neither byte alone decides, and the top bit is no sign.
    (255, 256, true),
    (256, 255, false),
    (256, 1, false),
    (256, 256, true),
    (511, 512, true),
    (512, 511, false),
    (32767, 32768, true),
    (32768, 32767, false),
    (32768, 1, false),
    (32768, 32768, true),
    (65534, 65535, true),
    (65535, 65534, false),
    (65535, 65535, true),
    (65535, 0, false),
    (65535, 1, false),
];

fn which_may_go(f: &mut Fixed) {
    f.section("retention years (document 02, Req 06): which may go at which present year; by hand, and 21 changes nothing");
    let (w, x) = (nth(2, 1), nth(2, 2));
    for (turn, (year, present, goes)) in WHICH.into_iter().enumerate() {
        f.label(&format!("year {year}, present year {present}"));
        f.lend(2, 2);
        f.ask("new 2 1");
        let first = if turn % 2 == 0 { format!("add_keyed 7 {w} {year:x} 0") } else { format!("add_multi 7 {w} {year:x}") };
        f.stated(first, "slot 0");
        if !goes {
            kept(f, format!("add_keyed 7 {x} 1 {present:x}"));
            kept(f, format!("remove_at 7 0 {present:x}"));
            kept(f, format!("remove 7 {present:x}"));
            dump_years(f, &[year, 0]);
            continue;
        }
        f.stated(format!("add_keyed 7 {x} {year:x} {present:x}"), "slot 0");
        f.stated(format!("remove_at 7 0 {present:x}"), "yes");
        f.stated(format!("add_multi 7 {w} {year:x}"), "slot 1");
        f.stated(format!("remove 7 {present:x}"), "yes");
        // The word of a dead slot stays.
        dump_years(f, &[year, year]);
    }
}

fn order(f: &mut Fixed) {
    f.section("21 comes after every other test of its call (Req 06); by hand");
    f.label("key 7 on slots 0 and 1, of which 0 is kept for good; 2 is unkeyed, 3 is key 8's, kept for good too; every place is in use");
    slots(f, &[(Some(7), 0), (Some(7), 1), (None, 0), (Some(8), 0)], 0);
    f.label("nothing to take: no, and no 21");
    for line in ["remove 5 0", "remove_at 5 0 0", "remove_at 8 0 0", "remove_at 7 2 0", "remove_at 7 3 0", "remove_at 7 4 0"] {
        f.stated(line, "no");
    }
    f.stated("remove_at 7 ffffffffffffffff 0", "no");
    f.label("1, 2, 3 before 21");
    for (entries, number) in [(vec![1.0; 3], 1), (vec![], 1), (vec![0.0; 4], 2), (vec![f32::NAN; 4], 2), (vec![1.0e30; 4], 3)] {
        f.told(format!("add_keyed 7 {} 1 7ea", v(&entries)), &format!("refused {number}"));
    }
    kept(f, format!("add_keyed 7 {} 1 7ea", nth(4, 9)));
    f.label("8 is of an append, 21 of an overwrite");
    for call in ["add", "add_keyed 9", "add_multi 7"] {
        f.told(adding(call, &nth(4, 9)), "refused 8");
    }
    kept(f, "remove 7 ffff");
    kept(f, "remove_at 7 0 ffff");
    f.label("13 before all");
    f.ask("field live 3");
    f.told_all(&["remove 7 0", "remove 5 0", "remove_at 7 0 0", &adding("add_keyed 7", &nth(4, 9)), &adding("add_keyed 7", "-")], "refused 13");
    f.ask("field live 4");
    f.label("years too short for the slots in use: 13; a slot without a year is not looked at");
    f.ask("field live 0");
    f.ask("lend 8 4 4 4 4 1 0 0 3");
    f.told_all(&["remove 7 0", "remove_at 7 0 0", "contains 7", "length"], "refused 13");
    f.ask("lend 8 4 4 4 4 1 0 0 4");
    f.asks(&["remove 7 0", "remove_at 7 0 0", "contains 7", "length"]);
    f.label("an append is told no duty of others: a key that is kept takes more slots, a new one is added beside it");
    slots(f, &[(Some(7), 0)], 3);
    f.stated(format!("add_multi 7 {} 0", nth(4, 1)), "slot 1");
    f.stated(format!("add_keyed 8 {} 0 0", nth(4, 2)), "slot 2");
    f.stated(format!("add {} ffff", nth(4, 3)), "slot 3");
    dump_years(f, &[0, 0, 0, 65535]);
}

fn whole_keys(f: &mut Fixed) {
    f.section("a whole-key removal tests every slot of the key before touching any (Req 06); by hand");
    for year in [0, YEAR + 1] {
        for at in 0..3 {
            f.label(&format!("of slots 0, 2 and 4 the one at position {at} has year {year}; those of key 8 don't count"));
            let mut years = [1, YEAR, 2];
            years[at] = year;
            slots(f, &[(Some(7), years[0]), (Some(8), 1), (Some(7), years[1]), (None, 0), (Some(7), years[2])], 1);
            kept(f, "remove 7 7ea");
            f.stated("contains 7", "yes");
            f.stated("slot_at 7 2", "slot 4");
            f.stated("remove 8 7ea", "yes");
            if year == 0 {
                kept(f, "remove 7 ffff");
            } else {
                f.stated("remove 7 7eb", "yes");
                f.stated("contains 7", "no");
                f.stated("remove 7 7eb", "no");
            }
            dump_years(f, &[years[0], 1, years[1], 0, years[2], 0]);
        }
    }
    f.label("of two duties the later one decides");
    slots(f, &[(Some(7), 5), (Some(7), 9)], 0);
    kept(f, "remove 7 5");
    kept(f, "remove 7 8");
    f.stated("remove 7 9", "yes");
    f.label("a key alone on a slot that is kept, beside one of several slots that may go");
    slots(f, &[(Some(8), 0), (Some(7), 3), (Some(7), 1)], 0);
    kept(f, "remove 8 ffff");
    f.stated("remove 7 3", "yes");
    kept(f, "remove 8 ffff");
}

fn single_slots(f: &mut Fixed) {
    f.section("a single removal tests the slot that it takes, not the one that it moves (Req 06); by hand");
    for later in [0, YEAR + 1] {
        f.label(&format!("the last held, which moves to the gap, has year {later}"));
        slots(f, &[(Some(7), 1), (Some(7), YEAR), (Some(7), later)], 0);
        f.stated("remove_at 7 0 7ea", "yes");
        f.stated("slot_at 7 0", "slot 2");
        f.stated("slot_at 7 1", "slot 1");
        f.label("now it is the first held: an overwrite tests it, a removal of slot 1 doesn't");
        kept(f, format!("add_keyed 7 {} 1 7ea", nth(4, 9)));
        kept(f, "remove 7 7ea");
        kept(f, "remove_at 7 2 7ea");
        f.stated("remove_at 7 1 7ea", "yes");
        f.stated("slot_at 7 0", "slot 2");
        kept(f, "remove_at 7 2 7ea");
        f.stated("remove_at 7 0 7ea", "no");
        dump_years(f, &[1, YEAR, later]);
        f.label(&format!("the first held has year {later}: others go, and it doesn't"));
        slots(f, &[(Some(7), later), (Some(7), 1), (Some(7), YEAR)], 0);
        kept(f, "remove_at 7 0 7ea");
        f.stated("remove_at 7 1 7ea", "yes");
        f.stated("remove_at 7 2 7ea", "yes");
        kept(f, "remove_at 7 0 7ea");
        f.stated("slot_at 7 0", "slot 0");
    }
    f.label("a dead slot, whatever its word: no");
    slots(f, &[(Some(7), 1), (Some(7), 1)], 0);
    f.stated("remove_at 7 0 0", "yes");
    f.ask("set years 0 0");
    f.stated("remove_at 7 0 0", "no");
    f.stated("remove 7 0", "yes");
}

fn overwrites(f: &mut Fixed) {
    f.section("an overwrite tests the first held slot and writes the new year there; the old one is gone (Req 06); by hand");
    let w = nth(4, 9);
    f.label("slots behind the first held are not tested");
    slots(f, &[(Some(7), 1), (Some(7), 0), (Some(8), 0), (Some(7), YEAR + 1)], 0);
    f.stated(format!("add_keyed 7 {w} 7ea 0"), "slot 0");
    dump_years(f, &[YEAR, 0, 0, YEAR + 1]);
    kept(f, format!("add_keyed 7 {w} 1 7e9"));
    f.stated(format!("add_keyed 7 {w} 1 7ea"), "slot 0");
    dump_years(f, &[1, 0, 0, YEAR + 1]);
    f.stated("remove_at 7 0 0", "yes");
    f.label("slot 3 is the first held now");
    kept(f, format!("add_keyed 7 {w} 1 7ea"));
    f.stated(format!("add_keyed 7 {w} 1 7eb"), "slot 3");
    dump_years(f, &[1, 0, 0, 1]);
    f.label("a duty that becomes longer, and one that becomes shorter");
    slots(f, &[(Some(7), YEAR)], 1);
    f.stated(format!("add_keyed 7 {w} 7eb 7ea"), "slot 0");
    kept(f, "remove 7 7ea");
    f.stated(format!("add_keyed 7 {w} 3 7eb"), "slot 0");
    kept(f, "remove 7 2");
    f.stated("remove 7 3", "yes");
    dump_years(f, &[3, 0]);
    f.label("from no duty to one for good");
    slots(f, &[(Some(7), 1)], 0);
    f.stated(format!("add_keyed 7 {w} 0 0"), "slot 0");
    kept(f, format!("add_keyed 7 {w} 1 ffff"));
    kept(f, "remove_at 7 0 ffff");
    dump_years(f, &[0]);
    f.label("a refused overwrite leaves the year");
    slots(f, &[(Some(7), YEAR)], 0);
    for (entries, number) in [(vec![1.0; 5], 1), (vec![0.0; 4], 2), (vec![f32::INFINITY; 4], 3)] {
        f.told(format!("add_keyed 7 {} 1 7ea", v(&entries)), &format!("refused {number}"));
    }
    dump_years(f, &[YEAR]);
    f.label("the index has no clock: a later call is judged by the present year that it is told");
    slots(f, &[(Some(7), YEAR), (Some(8), 1)], 0);
    f.stated("remove 9 ffff", "no");
    f.stated(format!("add_keyed 8 {w} 1 ffff"), "slot 1");
    kept(f, "remove 7 7e9");
    f.stated("remove 8 ffff", "yes");
    kept(f, "remove 7 7e9");
    f.stated("remove 7 7ea", "yes");
}

/// Calls that are told no year, and what they answer.
fn questions(f: &mut Fixed) -> Vec<String> {
    let w = nth(4, 9);
    let mut lines: Vec<String> = ["contains 7", "slot_at 7 0", "slot_at 7 1", "key_of 0", "key_of 2", "enable"].map(str::to_string).to_vec();
    lines.extend((0..4).map(|slot| format!("score {slot} {w}")));
    lines.extend(search_lines(f, 3, 2, &w, true));
    lines.extend(["relabel 7 9", "relabel 5 6", "relabel 9 8", "slot_at 9 1", "relabel 9 7", "bits 4", "bits 3"].map(str::to_string));
    lines.into_iter().map(|line| f.either(line)).collect()
}

fn not_asked(f: &mut Fixed) {
    f.section("relabelling, questions, scores, searches and width calls don't look at years (Req 06): they answer as where all are 1");
    let keys = [Some(7), Some(8), None, Some(7)];
    slots(f, &keys.map(|key| (key, 1)), 1);
    let answers = questions(f);
    for years in [[0; 4], [YEAR, 1, 0, 65535], [1, 0, 1, 1]] {
        let given: Vec<(Option<u64>, u16)> = keys.into_iter().zip(years).collect();
        slots(f, &given, 1);
        assert_eq!(questions(f), answers, "a year counts");
        dump_years(f, &[years[0], years[1], years[2], years[3], 0]);
    }
    f.label("relabelled slots keep their years, under the new key");
    slots(f, &[(Some(7), 0), (Some(7), YEAR), (Some(8), 1)], 0);
    f.stated("relabel 7 9", "yes");
    kept(f, "remove 9 ffff");
    kept(f, "remove_at 9 1 7e9");
    f.stated("remove_at 9 1 7ea", "yes");
    f.stated("remove 7 0", "no");
    f.label("a width call where no slot is in use leaves the words");
    f.lend(2, 4);
    f.ask("new 4 1");
    set_years(f, &[7, 9]);
    f.asks(&["bits 6", "bits 5", "bits 4"]);
    dump_years(f, &[7, 9]);
    f.ask("residual 4 1");
    dump_years(f, &[7, 9]);
}

fn dead_slots(f: &mut Fixed) {
    f.section("years of dead slots and of places past those in use count for nothing (Req 06); by hand");
    slots(f, &[(Some(7), 1), (Some(8), 5), (None, 1)], 2);
    set_years(f, &[1, 5, 1, 0, 65535]);
    f.stated("length", &format!("length {:x}", 28 + 3 * 4 + 2 * 12 + 3 * 2));
    f.stated("remove 8 5", "yes");
    for word in [5, 0, 65535, 2] {
        f.ask(format!("set years 1 {word:x}"));
        // All live years are 1: 259, without a year block, and the Rust's own file.
        f.ask("length");
        let file = f.either("write 100");
        assert!(file.starts_with("bytes 564543510301"), "259");
        f.ask(format!("score 1 {}", nth(4, 1)));
        f.stated("remove 8 0", "no");
        f.stated("remove_at 8 1 0", "no");
        f.ask(format!("add_keyed 7 {} 1 0", nth(4, 5)));
    }
    f.label("an append writes over the word that was there");
    f.stated(format!("add_keyed 8 {} 1 0", nth(4, 6)), "slot 3");
    dump_years(f, &[1, 2, 1, 1, 65535]);
    f.stated("remove 8 0", "yes");
    f.stated("compact", "ok");
    f.label("two slots are left; the places past them keep their words");
    dump_years(f, &[1, 1, 1, 1, 65535]);
    f.stated(format!("add {} 0", nth(4, 7)), "slot 2");
    dump_years(f, &[1, 1, 0, 1, 65535]);
}

fn compactions(f: &mut Fixed) {
    f.section("compaction moves years with their slots, and keeps those of places past them (Req 06); by hand");
    slots(f, &[(Some(1), 5), (Some(2), 0), (Some(3), 1), (Some(2), 9), (None, 0)], 1);
    f.ask("set years 5 ffff");
    f.stated("remove 1 5", "yes");
    f.stated("remove 3 0", "yes");
    dump_years(f, &[5, 0, 1, 9, 0, 65535]);
    f.stated("compact", "ok");
    dump_years(f, &[0, 9, 0, 9, 0, 65535]);
    f.label("the years are those of the slots they were with");
    kept(f, "remove_at 2 0 ffff");
    kept(f, "remove_at 2 1 8");
    f.stated("remove_at 2 1 9", "yes");
    f.stated(format!("add_keyed 3 {} 4 0", nth(4, 9)), "slot 3");
    dump_years(f, &[0, 9, 0, 4, 0, 65535]);
    f.stated("compact", "ok");
    dump_years(f, &[0, 0, 4, 4, 0, 65535]);
    f.label("nothing is dead: nothing moves");
    f.stated("compact", "ok");
    dump_years(f, &[0, 0, 4, 4, 0, 65535]);
    for making in ["new 2 1", "residual 2 1"] {
        for (left, live) in [(0, 0), (1, 24), (2, 47), (3, 70)] {
            f.label(&format!("{making}: of 70 slots those stay whose number is below {left} modulo 3"));
            f.lend(71, 2);
            f.asks(&[making, "bits 4"]);
            // Slot s has year s + 2, so that slots that stay have other years than their new places had.
            for slot in 0..70 {
                f.stated(format!("add_multi {:x} {} {:x}", slot % 3, nth(2, slot % 40), slot + 2), &format!("slot {slot:x}"));
            }
            for key in left..3 {
                f.stated(format!("remove {key:x} 48"), "yes");
            }
            f.stated("compact", "ok");
            let stay: Vec<u16> = (0..70).filter(|slot| slot % 3 < left as u16).map(|slot| slot + 2).collect();
            assert_eq!(stay.len(), live);
            let after: Vec<u16> = stay.iter().copied().chain((live as u16..70).map(|slot| slot + 2)).chain([0]).collect();
            dump_years(f, &after);
            f.either("write 1000");
        }
    }
}

/// The bytes of a file, their blocks parted by blanks.
fn file(blocks: &str) -> String {
    blocks.replace(' ', "")
}

/// The file is this one, as long as `length` says and not a place shorter.
fn is_written(f: &mut Fixed, blocks: &str) {
    let file = file(blocks);
    let length = file.len() / 2;
    f.stated("length", &format!("length {length:x}"));
    f.told(format!("write {:x}", length - 1), "refused 13");
    f.stated(format!("write {length:x}"), &format!("bytes {file}"));
    f.stated("write 100", &format!("bytes {file}"));
}

/// The file is read, has these years, and is written as before.
fn is_read_back(f: &mut Fixed, blocks: &str, years: &[u16]) {
    f.lend(years.len(), 4);
    f.stated(format!("read {}", file(blocks)), "ok");
    dump_years(f, years);
    is_written(f, blocks);
}

fn written(f: &mut Fixed) {
    f.section("files: 262, 263 and 264 byte by byte, and back to 259, 260 and 261 (Req 06); by hand");
    let one = "3f800000";
    f.label("document 01's worked file with year 1, then with year 2027");
    let head = "5645 4351 0501 0000 01000000 0100000000000000 01000000 05 9a3b 08 00000000";
    let dated = "5645 4351 0801 0000 01000000 0100000000000000 01000000 05 9a3b 08 00000000 eb07";
    f.lend(1, 1);
    f.asks(&["new 1 1", "add 40400000 1"]);
    is_written(f, head);
    f.ask("new 1 1");
    f.stated("add 40400000 7eb", "slot 0");
    is_written(f, dated);
    is_read_back(f, dated, &[2027]);
    f.label("6 bits, kept for good");
    f.lend(1, 1);
    f.asks(&["new 1 1", "bits 6"]);
    f.stated("add_keyed ffffffffffffffff 40400000 0 0", "slot 0");
    set_stages(f, 0, &[0x2a, ONE]);
    let dated = "5645 4351 0801 0000 01000000 0100000000000000 01000000 06 003c 2a 01000000 00000000 ffffffffffffffff 0000";
    is_written(f, dated);
    is_read_back(f, dated, &[0]);
    f.label("4 bits: slot 1 is dead, so that the years of slots 0, 2 and 3 stand behind the key table");
    f.lend(4, 1);
    f.asks(&["new 1 1", "bits 4"]);
    f.stated(format!("add_keyed 7 {one} 7eb 0"), "slot 0");
    f.stated(format!("add_keyed 8 {one} 7ea 0"), "slot 1");
    f.stated(format!("add {one} 0"), "slot 2");
    f.stated(format!("add_multi 7 {one} ffff"), "slot 3");
    // Scales of 1, 2, 1.5 and 0.5.
    for (slot, stage) in [[0xb, ONE], [0x3, 0x4000_0000], [0xc, 0x3fc0_0000], [0xf, 0x3f00_0000]].iter().enumerate() {
        set_stages(f, slot, stage);
    }
    is_written(
        f,
        "5645 4351 0601 0000 01000000 0100000000000000 04000000 003c0040003e0038 0b030c0f \
         03000000 00000000 0700000000000000 01000000 0800000000000000 03000000 0700000000000000 eb07 ea07 0000 ffff",
    );
    f.stated("remove 8 7ea", "yes");
    let dated = "5645 4351 0601 0000 01000000 0100000000000000 03000000 003c003e0038 0b0c0f \
                 02000000 00000000 0700000000000000 02000000 0700000000000000 eb07 0000 ffff";
    is_written(f, dated);
    f.label("one of three is enough, the first, the second or the last");
    for (years, block) in [([2, 9, 1, 1], "0200 0100 0100"), ([1, 0, 256, 1], "0100 0001 0100"), ([1, 1, 1, 0], "0100 0100 0000")] {
        set_years(f, &years);
        is_written(f, &dated.replace("eb07 0000 ffff", block));
    }
    f.label("all live slots have year 1: the file of before, whatever the dead one has");
    let plain = dated.replace("0601", "0301").replace(" eb07 0000 ffff", "");
    for dead in [0, 1, 2, 65535] {
        set_years(f, &[1, dead, 1, 1]);
        is_written(f, &plain);
    }
    is_read_back(f, dated, &[2027, 0, 65535]);
    is_read_back(f, &plain, &[1, 1, 1]);
    f.label("back to 259 by calls: slot 0 overwritten, slot 1's year set, slot 2 removed");
    is_read_back(f, dated, &[2027, 0, 65535]);
    f.stated(format!("add_keyed 7 {one} 1 7eb"), "slot 0");
    set_stages(f, 0, &[0xb, ONE]);
    f.ask("set years 1 1");
    is_written(f, &dated.replace("eb07 0000", "0100 0100"));
    f.stated("remove_at 7 2 ffff", "yes");
    is_written(f, "5645 4351 0301 0000 01000000 0100000000000000 02000000 003c003e 0b0c 01000000 00000000 0700000000000000");
    f.label("none live: 259");
    f.ask("set years 0 5");
    f.stated("remove 7 5", "yes");
    f.ask("field live 0");
    f.ask("set alive 0 0");
    is_written(f, "5645 4351 0301 0000 01000000 0100000000000000 00000000 00000000");
    f.label("the residual, fewer working dimensions, then back to 260");
    f.lend(2, 1);
    f.asks(&["working 2 1 1", "bits 4", "field residual 1"]);
    f.stated("add_keyed 5 3f80000000000000 1 0", "slot 0");
    f.stated("add_keyed 6 3f80000000000000 64 0", "slot 1");
    for (slot, stages) in [[0xb, ONE, 0x1, 0x4000_0000], [0x3, 0x3f00_0000, 0x2, 0]].iter().enumerate() {
        set_stages(f, slot, stages);
    }
    let dated = "5645 4351 0701 0100 02000000 0100000000000000 02000000 003c0038 0b03 00400000 0102 \
                 02000000 00000000 0500000000000000 01000000 0600000000000000 0100 6400";
    is_written(f, dated);
    is_read_back(f, dated, &[1, 100]);
    f.stated("add_keyed 6 3f80000000000000 1 64", "slot 1");
    set_stages(f, 1, &[0x3, 0x3f00_0000, 0x2, 0]);
    is_written(f, &dated.replace("0701", "0401").replace(" 0100 6400", ""));
    f.label("13 of the file's places counts the year block");
    f.lend(1, 1);
    f.ask("new 1 1");
    f.stated("add 40400000 2", "slot 0");
    f.told_all(&["write 20", "write 21", "write 0"], "refused 13");
    f.stated("length", "length 22");
}

/// Each version with years, the widths of 264, with a working_dim below dim too.
fn dated(dim: u32, years: &[u16], keys: &[(u32, u64)]) -> Vec<File> {
    let mut files: Vec<File> = [(262, 4), (263, 4), (264, 4), (264, 5), (264, 6)]
        .map(|(version, width)| File { years: years.to_vec(), ..File::new(version, dim, width, years.len(), keys) })
        .into();
    files.extend([262, 263, 264].map(|version| {
        let width = if version == 264 { 6 } else { 4 };
        File { working: dim as u16 - 1, years: years.to_vec(), ..File::new(version, dim, width, years.len(), keys) }
    }));
    files
}

fn years_of_files(f: &mut Fixed) {
    f.section("reading: 262, 263 and 264 whose years are all 1, or that have no slot, are read and written back as 259, 260 and 261 (Req 06)");
    for (years, keys) in [(vec![1, 1, 1], vec![(0, 7), (1, 8)]), (vec![1], vec![]), (vec![], vec![])] {
        for file in dated(3, &years, &keys) {
            let dated = file.bytes();
            f.lend(3, 12);
            f.label(&format!("version {}, width {}, working_dim field {}, {} slots", file.version, file.width, file.working, file.count));
            assert_eq!(read(f, &dated), "ok");
            let mut stated = years.clone();
            stated.resize(3, 0);
            dump_years(f, &stated);
            // 264 with width 4 is read, and written as what 4 bits are written as.
            let version = if file.width == 4 && file.version == 264 { 259 } else { file.version - 3 };
            let mut plain = with(&dated, 4, &u16::to_le_bytes(version));
            plain.truncate(dated.len() - 2 * years.len());
            if file.has_width() && version == 259 {
                plain.remove(24);
            }
            f.ask("length");
            let answer = f.either("write 200");
            assert_eq!(answer, format!("bytes {}", bytes(&plain)), "the file of before");
            f.either(format!("score 0 {}", nth(3, 1)));
        }
    }
}

fn versions(f: &mut Fixed) {
    f.section("reading: 262, 263 and 264, then the index as it is, and what its years allow (Req 06)");
    let query = nth(3, 1);
    for file in dated(3, &[0, 2027, 1], &[(2, 7), (0, 8), (1, 7)]) {
        f.label(&format!("version {}, width {}, working_dim field {}", file.version, file.width, file.working));
        f.lend(4, 12);
        set_years(f, &[5, 5, 5, 9]);
        f.stated(format!("read {}", bytes(&file.bytes())), "ok");
        dump_years(f, &[0, 2027, 1, 9]);
        for line in ["contains 7", "slot_at 7 0", "slot_at 7 1", "key_of 0", "key_of 3", "length", "write 200"] {
            f.either(line);
        }
        f.either(format!("score 1 {query}"));
        search_lines(f, 2, 2, &query, false).into_iter().for_each(|line| {
            f.either(line);
        });
        kept(f, "remove 7 7ea");
        kept(f, "remove 8 ffff");
        kept(f, format!("add_keyed 7 {query} 1 7ea"));
        f.stated("remove_at 7 2 0", "yes");
        f.stated(format!("add_keyed 7 {query} 5 7eb"), "slot 1");
        f.stated(format!("add {query} 1"), "slot 3");
        dump_years(f, &[0, 5, 1, 1]);
        f.either("write 200");
    }
}

fn spoilt(f: &mut Fixed) {
    f.section("reading: files of 262, 263 and 264 cut at every length (14, but for the whole one), and damaged (Req 06)");
    for file in dated(2, &[0, 2027], &[(1, 9), (0, 9)]) {
        f.lend(2, 4);
        f.label("cut");
        let answers = cuts(f, &file);
        let (whole, cut) = answers.split_last().expect("an answer for each length");
        assert!(whole == "ok" && cut.iter().all(|answer| answer == "refused 14"), "14 of what is cut");
        dump_years(f, &[0, 2027]);
        f.label("damaged: head, key table, year block");
        let answers = damages(f, &file);
        // Two years of two bytes, each of which is damaged twice.
        assert!(answers[answers.len() - 8..].iter().all(|answer| answer == "ok"), "every word is a year");
        f.either("dump");
    }
}

fn reading_refusals(f: &mut Fixed) {
    f.section("reading: what is refused of files with years, and in which order (Req 06); by hand, and nothing changes");
    let query = nth(4, 1);
    f.lend(2, 4);
    f.ask("new 4 1");
    f.stated(format!("add_keyed 7 {query} 7ea 0"), "slot 0");
    let before = f.either("dump");
    let dated = |version, dim, years: &[u16], keys: &[(u32, u64)]| File { years: years.to_vec(), ..File::new(version, dim, 4, years.len(), keys) }.bytes();
    let refused = |f: &mut Fixed, what: &str, file: &[u8], number: u8| {
        f.label(what);
        f.stated(format!("read {}", bytes(file)), &format!("refused {number}"));
    };
    let whole = dated(262, 4, &[9], &[(0, 7)]);
    refused(f, "14: 23 bytes", &whole[..23], 14);
    refused(f, "14 before 15", &with(&whole, 0, b"VECR")[..23], 14);
    refused(f, "15", &with(&whole, 0, b"VECR"), 15);
    f.label("16: 265 and above, whatever follows");
    for version in [265u16, 266, 267, 512, 65535] {
        f.stated(format!("read {}", bytes(&with(&whole, 4, &version.to_le_bytes()))), "refused 16");
    }
    refused(f, "16 before 17", &with(&with(&whole, 4, &[9, 1]), 6, &[5, 0]), 16);
    refused(f, "17: 5 over 4, before 14", &with(&whole[..24], 6, &[5, 0]), 17);
    refused(f, "17 of 264 before the width byte's 14", &with(&dated(264, 4, &[9], &[])[..24], 6, &[5, 0]), 17);
    refused(f, "14: 264 without a width byte", &dated(264, 4, &[9], &[])[..24], 14);
    refused(f, "18: width bytes 3 and 7", &with(&dated(264, 4, &[9], &[]), 24, &[3]), 18);
    refused(f, "18 before 20", &with(&with(&dated(264, 4, &[9], &[]), 24, &[7]), 8, &[1, 0x10, 0, 0]), 18);
    refused(f, "20: dim 4,097", &with(&whole, 8, &[1, 0x10, 0, 0]), 20);
    refused(f, "20: count 65,537", &with(&whole, 20, &[1, 0, 1, 0]), 20);
    refused(f, "20: a slot more than the lent arrays hold, before 14", &dated(262, 4, &[9; 3], &[])[..24], 20);
    refused(f, "14: the first block", &whole[..27], 14);
    refused(f, "17: dim 0, before the years' 14", &with(&dated(262, 1, &[9], &[])[..27], 8, &[0; 4]), 17);
    refused(f, "the first block's 14 before dim 0", &with(&dated(262, 1, &[9], &[])[..26], 8, &[0; 4]), 14);
    refused(f, "14: the second stage of 263", &dated(263, 4, &[9], &[])[..30], 14);
    refused(f, "14: 263 that ends before its key count", &dated(263, 4, &[9], &[])[..32], 14);
    refused(f, "14: the key count", &whole[..29], 14);
    refused(f, "14: a key entry", &whole[..43], 14);
    refused(f, "14: no year block", &whole[..44], 14);
    refused(f, "14: half a year", &whole[..45], 14);
    for (version, at) in [(262, 24), (263, 24), (264, 25)] {
        f.label(&format!("{version}: 19 with a whole year block, before which its 14 comes"));
        for keys in [&[(1, 7)][..], &[(0, 7), (0, 8)], &[(u32::MAX, 0)]] {
            let file = dated(version, 4, &[9], keys);
            f.stated(format!("read {}", bytes(&file)), "refused 19");
            f.stated(format!("read {}", bytes(&file[..file.len() - 1])), "refused 14");
            f.stated(format!("read {}", bytes(&file[..file.len() - 2])), "refused 14");
            f.stated(format!("read {}", bytes(&file[..file.len() - 3])), "refused 14");
            f.stated(format!("read {}", bytes(&[&file[..], &[0]].concat())), "refused 19");
        }
        f.label("a key count of 2^32 - 1");
        let stages = if version == 263 { 2 } else { 1 };
        f.stated(format!("read {}", bytes(&with(&dated(version, 4, &[9], &[]), at + 4 * stages, &[0xff; 4]))), "refused 14");
    }
    f.label("an older file with 262 for its version lacks its years");
    for version in [259, 260, 261] {
        let older = File::new(version, 4, 4, 2, &[(0, 7)]).bytes();
        refused(f, "14", &with(&older, 4, &u16::to_le_bytes(version + 3)), 14);
    }
    f.label("nothing changed");
    f.stated("dump", &before);
    f.label("20: room for one slot in years");
    f.ask("lend 4 2 2 2 2 1 4 2 1");
    for version in [262, 263] {
        f.stated(format!("read {}", bytes(&dated(version, 4, &[9, 1], &[]))), "refused 20");
        f.stated(format!("read {}", bytes(&dated(version, 4, &[9], &[]))), "ok");
        dump_years(f, &[9]);
    }
    f.label("bytes after the year block are passed over; a file of no slot has no years");
    f.stated(format!("read {}", bytes(&[&whole[..], &[1, 2, 3]].concat())), "ok");
    dump_years(f, &[9]);
    f.stated("write 100", &format!("bytes {}", bytes(&whole)));
    f.stated(format!("read {}", bytes(&dated(264, 4, &[], &[]))), "ok");
    f.ask("write 100");
    f.label("reading never gives 13: a misfit before it, arrays of length 0");
    f.ask("field live 7");
    f.told("contains 7", "refused 13");
    f.stated(format!("read {}", bytes(&whole)), "ok");
    f.ask("lend 0 0 0 0 0 0 0 0 0");
    f.stated(format!("read {}", bytes(&whole)), "refused 20");
    f.stated(format!("read {}", bytes(&dated(263, 4, &[], &[]))), "ok");
    f.ask("dump");
}

fn older_files(f: &mut Fixed) {
    f.section("reading: the slots of 257 to 261 have year 1, whatever stood there; places past them keep their words (Req 06); by hand");
    for (version, width) in [(257, 4), (258, 4), (259, 4), (260, 4), (261, 4), (261, 6)] {
        f.label(&format!("version {version}, width {width}"));
        let file = |count| File::new(version, 3, width, count, &[]).bytes();
        f.lend(4, 4);
        set_years(f, &[0, 2, 65535, 2027]);
        f.stated(format!("read {}", bytes(&file(2)[..30])), "refused 14");
        f.stated(format!("read {}", bytes(&file(5))), "refused 20");
        let answer = f.either("dump");
        assert!(answer.ends_with(" years 00000002ffff07eb"), "a refused reading changes nothing");
        f.stated(format!("read {}", bytes(&file(2))), "ok");
        dump_years(f, &[1, 1, 65535, 2027]);
        f.ask("write 100");
        f.stated(format!("read {}", bytes(&file(0))), "ok");
        dump_years(f, &[1, 1, 65535, 2027]);
        f.stated(format!("read {}", bytes(&file(3))), "ok");
        dump_years(f, &[1, 1, 1, 2027]);
        f.stated(format!("add {} 5", nth(3, 1)), "slot 3");
        dump_years(f, &[1, 1, 1, 5]);
    }
}
