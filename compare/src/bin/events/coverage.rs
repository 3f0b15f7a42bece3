//! `--coverage`: how often each meeting of rules happened, told from the
//! model's record before and after each event.

use crate::check::Outcome;
use crate::fields::*;
use std::collections::BTreeMap;

#[derive(Default)]
pub struct Coverage {
    lines: Vec<(&'static str, u64)>,
    broken: BTreeMap<&'static str, u64>,
    /// Power-ups, by the settings that are out of range: a bit for each.
    power_ups: [u64; 32],
}

pub struct Seen<'a> {
    pub before: &'a Record,
    pub memory_before: &'a [u32],
    pub event: &'a Event,
    pub outcome: &'a Outcome,
    pub rate: &'a Figures,
    pub after: &'a Record,
    /// Not the session's first event.
    pub later: bool,
}

impl Coverage {
    pub fn note(&mut self, seen: &Seen) {
        let (b, a, e) = (seen.before, seen.after, seen.event);
        let [refusal, _, moved, fate] = seen.outcome.answer;
        let broken = broken_clauses(b);
        match broken[..] {
            [] => {}
            [clause] => *self.broken.entry(clause).or_default() += 1,
            _ => *self.broken.entry("more than one clause").or_default() += 1,
        }

        if e[0] == POWER_UP {
            self.power_ups[bad_settings(e)] += 1;
        }

        let sound = broken.is_empty();
        let done = refusal == 0;
        let value = e[2];
        let bit = |n: u32| value >> n & 1 == 1;
        let wrote = |offset: u32| done && e[0] == WRITE && e[1] == offset;
        let bcr = wrote(BCR) && !bit(15);
        let bor = wrote(BOR);
        let load = wrote(0x18);
        let up = e[0] == POWER_UP;
        let soft = bor && bit(7);
        let clock = done && matches!(e[0], TICK | OUTSIDE);
        let length = seen.memory_before.len() as u32;
        let fit = depth(b[FITTED]).is_some_and(|depth| length >= depth);
        let size_b = if sound { size(b) } else { 8 };
        let deep = depth(b[FITTED]).unwrap_or(8);

        // The values that left, and their marks.
        let mut marks = 0;
        let mut last_marked = false;
        if moved > 0 {
            for i in 0..moved {
                let entry = seen.memory_before[((b[FIRST] + i) % deep) as usize];
                last_marked = entry & EOF != 0;
                marks += last_marked as u32;
            }
        }
        let was_closed = closed(b);
        let recirculated = moved > 0 && a[COUNT] == b[COUNT];
        let full_before = b[COUNT] >= size_b;

        let mut at = 0;
        let lines = &mut self.lines;
        let mut hit = |name: &'static str, happened: bool| {
            if lines.len() == at {
                lines.push((name, 0));
            }
            lines[at].1 += happened as u64;
            at += 1;
        };

        hit("power-up accepted", up && done);
        hit(
            "power-up accepted in mid-session",
            up && done && seen.later && b[POWERED] == 1,
        );
        hit(
            "power-up accepted over an unsound record",
            up && done && !sound,
        );
        hit(
            "power-up with a memory longer than the depth",
            up && done && length > 8 << e[1].min(15),
        );
        hit(
            "power-up with a memory of exactly the depth",
            up && done && length == 8 << e[1].min(15),
        );
        hit(
            "power-up refused 1: fitted 16",
            up && refusal == 1 && e[1] == 16,
        );
        hit(
            "power-up refused 1: fitted far out",
            up && refusal == 1 && e[1] > 31,
        );
        hit(
            "power-up refused 14: range 3",
            up && refusal == 14 && e[2] == 3,
        );
        hit(
            "power-up refused 15: filter 3",
            up && refusal == 15 && e[3] == 3,
        );
        hit(
            "power-up refused 16: kit 3",
            up && refusal == 16 && e[4] == 3,
        );
        hit(
            "power-up refused 17: firmware 4096",
            up && refusal == 17 && e[5] == 4096,
        );
        hit(
            "power-up refused 14 to 16 with a memory too short",
            up && (14..17).contains(&refusal) && length < 8 << e[1].min(15),
        );
        hit(
            "power-up refused 17 with a memory too short",
            up && refusal == 17 && length < 8 << e[1].min(15),
        );
        hit("power-up refused 2", up && refusal == 2);
        hit(
            "power-up refused 2 by one entry",
            up && refusal == 2 && length + 1 == 8 << e[1].min(15),
        );

        hit("refused 3", refusal == 3);
        hit(
            "refused 3 with a memory too short",
            refusal == 3 && depth(b[FITTED]).is_some() && !fit,
        );
        hit(
            "refused 3 with a bad offset",
            refusal == 3 && matches!(e[0], WRITE | READ) && !REGISTERS.contains(&e[1]),
        );
        hit("refused 2, not a power-up", !up && refusal == 2);
        hit(
            "refused 2 by one entry, not a power-up",
            !up && refusal == 2 && length + 1 == deep,
        );
        hit("refused 4: read", refusal == 4 && e[0] == READ);
        hit("refused 4: write", refusal == 4 && e[0] == WRITE);
        hit("refused 4: offset above FFh", refusal == 4 && e[1] > 0xFF);
        hit("refused 4: offset 104h", refusal == 4 && e[1] == 0x104);
        hit(
            "refused 4: offset 4000000000",
            refusal == 4 && e[1] == 4_000_000_000,
        );
        hit(
            "refused 4 while calibrating, write",
            refusal == 4 && e[0] == WRITE && b[CALIBRATING] == 1,
        );
        hit("refused 5: 10h", refusal == 5 && e[1] == 0x10);
        hit("refused 5: 14h", refusal == 5 && e[1] == 0x14);
        hit(
            "refused 5 while calibrating",
            refusal == 5 && b[CALIBRATING] == 1,
        );
        hit("refused 6: BCR", refusal == 6 && e[1] == BCR);
        hit(
            "refused 6: initialise",
            refusal == 6 && e[1] == BCR && bit(15),
        );
        hit("refused 6: mask", refusal == 6 && e[1] == 4);
        hit("refused 6: divisor", refusal == 6 && e[1] == 8);
        hit("refused 6: BOR", refusal == 6 && e[1] == BOR);
        hit(
            "refused 6: BOR with a software clock",
            refusal == 6 && e[1] == BOR && bit(7),
        );
        hit("refused 6: load", refusal == 6 && e[1] == 0x18);
        hit("refused 6: reference", refusal == 6 && e[1] == 0x1C);
        hit(
            "refused 7: calibration end",
            refusal == 7 && e[0] != SETTLED,
        );
        hit("refused 7: settled", refusal == 7 && e[0] == SETTLED);

        for (name, register) in [
            ("read 00h", 0x00),
            ("read 04h", 0x04),
            ("read 08h", 0x08),
            ("read 0Ch", 0x0C),
            ("read 10h", 0x10),
            ("read 14h", 0x14),
            ("read 18h", 0x18),
            ("read 1Ch", 0x1C),
        ] {
            hit(name, done && e[0] == READ && e[1] == register);
        }
        hit(
            "read while calibrating",
            done && e[0] == READ && b[CALIBRATING] == 1,
        );
        hit(
            "read 08h with a divisor above 16 bits",
            done && e[0] == READ && e[1] == 8 && b[DIVISOR] > 0xFFFF,
        );
        hit(
            "read BOR with count above the size",
            done && e[0] == READ && e[1] == BOR && b[COUNT] > size_b,
        );
        hit(
            "read BOR while settling and EXTERNAL",
            done && e[0] == READ && e[1] == BOR && b[SETTLING] == 1 && b[EXTERNAL] == 1,
        );
        hit(
            "read BOR at exactly a quarter",
            done && e[0] == READ && e[1] == BOR && 4 * b[COUNT] == size_b,
        );
        hit(
            "read BOR at exactly three quarters",
            done && e[0] == READ && e[1] == BOR && 4 * b[COUNT] == 3 * size_b,
        );

        hit("load stored", fate == 1);
        hit("load stored with EOF", fate == 1 && value & EOF != 0);
        hit(
            "load stored, junk above bit 16 in the value",
            fate == 1 && value > 0x1_FFFF,
        );
        hit(
            "load stored past the end of the depth",
            fate == 1 && b[FIRST] + b[COUNT] >= deep,
        );
        hit(
            "load stored in an opened circular buffer",
            fate == 1 && b[OPENED] == 1,
        );
        hit("load lost to full", fate == 2);
        hit(
            "load lost to full by a size cut",
            fate == 2 && b[COUNT] < deep,
        );
        hit(
            "load lost to full with count above the size",
            fate == 2 && b[COUNT] > size_b,
        );
        hit("load lost to full, opened", fate == 2 && b[OPENED] == 1);
        hit("load lost to closed", fate == 3);
        hit("load lost to closed and full", fate == 3 && full_before);
        hit("load lost to closed, pending", fate == 3 && b[PENDING] == 1);
        hit(
            "load that sets a flag already set",
            load && (fate == 2 && b[BUFFER_OVERFLOW] == 1 || fate == 3 && b[FRAME_OVERFLOW] == 1),
        );

        hit(
            "tick moved, EXTERNAL 0",
            e[0] == TICK && moved > 0 && b[EXTERNAL] == 0,
        );
        hit(
            "tick moved, EXTERNAL and ALT",
            e[0] == TICK && moved > 0 && b[EXTERNAL] == 1,
        );
        hit(
            "tick moved while settling",
            e[0] == TICK && moved > 0 && b[SETTLING] == 1,
        );
        hit(
            "tick on EXTERNAL without ALT",
            clock && e[0] == TICK && b[EXTERNAL] == 1 && b[ALT] == 0,
        );
        hit("outside moved", e[0] == OUTSIDE && moved > 0);
        hit(
            "outside on EXTERNAL 0",
            clock && e[0] == OUTSIDE && b[EXTERNAL] == 0,
        );
        hit(
            "outside on ALT",
            clock && e[0] == OUTSIDE && b[EXTERNAL] == 1 && b[ALT] == 1,
        );
        hit(
            "outside while settling",
            clock && e[0] == OUTSIDE && b[SETTLING] == 1 && b[EXTERNAL] == 1 && b[ALT] == 0,
        );
        hit("clock while not enabled", clock && b[ENABLED] == 0);
        hit("clock while calibrating", clock && b[CALIBRATING] == 1);
        hit("clock with mask 0", clock && b[MASK] == 0 && b[COUNT] > 0);
        hit(
            "clock with bursts and none running",
            clock && b[BURSTS] == 1 && b[BURST] == 0 && b[COUNT] > 0,
        );
        hit(
            "clock with one value too few for the group",
            clock
                && moved == 0
                && b[SIMULTANEOUS] == 1
                && b[COUNT] > 0
                && b[COUNT] + 1 == b[MASK].count_ones(),
        );
        hit(
            "clock with exactly the group",
            clock && moved > 1 && b[COUNT] == moved,
        );
        hit("software clock moved", soft && moved > 0);
        hit(
            "software clock moved, EXTERNAL set by the same write",
            soft && moved > 0 && b[EXTERNAL] == 0,
        );
        hit("software clock with clear", soft && bit(11) && b[COUNT] > 0);
        hit(
            "software clock moved, circular changed by the same write",
            soft && moved > 0 && a[CIRCULAR] != b[CIRCULAR],
        );
        hit(
            "software clock moved EOF, request made by the same write",
            soft && marks > 0 && bit(9) && b[PENDING] == 0 && a[OPENED] == 1,
        );

        hit("moved 1, sequential", moved == 1 && b[SIMULTANEOUS] == 0);
        hit("moved 1, simultaneous", moved == 1 && b[SIMULTANEOUS] == 1);
        hit("moved 2 to 19", (2..20).contains(&moved));
        hit("moved 20", moved == 20);
        hit(
            "sequential, cursor past the last active channel",
            moved == 1
                && b[SIMULTANEOUS] == 0
                && b[CURSOR] > 0
                && b[MASK] >> b[CURSOR].min(31) == 0,
        );
        hit(
            "sequential, cursor 20 before",
            moved == 1 && b[CURSOR] == 20,
        );
        hit(
            "sequential, cursor 20 after",
            moved == 1 && a[CURSOR] == 20 && b[CURSOR] != 20,
        );
        hit(
            "sequential, nothing stored",
            clock && b[SIMULTANEOUS] == 0 && b[COUNT] == 0 && b[ENABLED] == 1,
        );
        hit(
            "moved past the end of the depth",
            moved > 1 && b[FIRST] + moved > deep,
        );
        hit("moved in two's complement", moved > 0 && b[BINARY] == 0);
        hit(
            "discarded in an opened circular buffer",
            moved > 0 && b[OPENED] == 1 && !recirculated,
        );
        hit("recirculated", recirculated);
        hit("recirculated a group", recirculated && moved > 1);
        hit(
            "recirculated with the memory full",
            recirculated && b[COUNT] == deep,
        );
        hit(
            "recirculated with count above the size",
            recirculated && b[COUNT] > size_b,
        );
        hit(
            "recirculated the only values",
            recirculated && b[COUNT] == moved,
        );

        hit("EOF", marks > 0);
        hit(
            "EOF in a group but not last",
            marks > 0 && moved > 1 && !last_marked,
        );
        hit("more than one EOF in a group", marks > 1);
        hit(
            "more than one EOF in a group, pending",
            marks > 1 && b[PENDING] == 1,
        );
        hit(
            "more than one EOF in a group, opened",
            marks > 1 && b[OPENED] == 1,
        );
        hit(
            "EOF: pending to opened",
            marks > 0 && b[PENDING] == 1 && a[OPENED] == 1,
        );
        hit(
            "EOF: opened to closed",
            marks > 0 && b[OPENED] == 1 && a[OPENED] == 0,
        );
        hit(
            "EOF in a closed buffer, no request",
            marks > 0 && was_closed && b[PENDING] == 0 && !bor,
        );
        hit(
            "EOF ends a software burst",
            marks > 0 && b[SOFTWARE] == 1 && a[BURST] == 0,
        );
        hit(
            "EOF ends a triggered burst",
            marks > 0 && b[BURST] == 1 && b[SOFTWARE] == 0 && a[BURST] == 0,
        );
        hit(
            "EOF ends a burst and opens",
            marks > 0 && b[BURST] == 1 && b[PENDING] == 1 && a[OPENED] == 1,
        );
        hit(
            "a burst goes on after the buffer ran empty",
            moved > 0 && a[COUNT] == 0 && a[BURST] == 1,
        );

        let trigger = done && e[0] == TRIGGER;
        hit("trigger starts a burst", trigger && a[BURST] != b[BURST]);
        hit(
            "trigger while barred",
            trigger && b[BARRED] == 1 && b[BURSTS] == 1 && b[BURST] == 0,
        );
        hit("trigger without bursts", trigger && b[BURSTS] == 0);
        hit(
            "trigger in a software burst",
            trigger && b[SOFTWARE] == 1 && b[BARRED] == 0,
        );
        hit(
            "trigger while calibrating",
            trigger && b[CALIBRATING] == 1 && b[BURSTS] == 1 && b[BURST] == 0 && b[BARRED] == 0,
        );

        hit(
            "BCR: D2 starts a burst",
            bcr && b[BURST] == 0 && a[SOFTWARE] == 1,
        );
        hit(
            "BCR: D2 in a triggered burst",
            bcr && bit(2) && bit(0) && b[BURST] == 1 && b[SOFTWARE] == 0,
        );
        hit("BCR: D2 without D0", bcr && bit(2) && !bit(0));
        hit(
            "BCR: D2 without D0 in a burst",
            bcr && bit(2) && !bit(0) && b[BURST] == 1,
        );
        hit(
            "BCR: D0 = 0 ends a burst",
            bcr && b[BURST] == 1 && a[BURST] == 0,
        );
        hit(
            "BCR: D7 changes in mid-frame",
            bcr && b[SIMULTANEOUS] != a[SIMULTANEOUS] && b[CURSOR] > 0,
        );
        hit(
            "BCR: D7 unchanged in mid-frame",
            bcr && b[SIMULTANEOUS] == a[SIMULTANEOUS] && b[CURSOR] > 0,
        );
        hit(
            "BCR: D11 = 0 clears the request",
            bcr && b[REQUEST] == 1 && !bit(11) && a[REQUEST] == 0,
        );
        hit(
            "BCR: D11 = 1 leaves the request",
            bcr && b[REQUEST] == 1 && bit(11) && a[REQUEST] == 1,
        );
        hit(
            "BCR: D11 = 1 with no request",
            bcr && b[REQUEST] == 0 && bit(11),
        );
        hit(
            "BCR: D11 = 0, but the condition rises",
            bcr && !bit(11) && a[REQUEST] == 1,
        );
        hit("BCR: calibration starts", bcr && a[CALIBRATING] == 1);
        hit(
            "BCR: calibration starts, D14 was set",
            bcr && a[CALIBRATING] == 1 && b[CAL_FAILED] == 1,
        );
        hit(
            "BCR: calibration starts in a burst",
            bcr && a[CALIBRATING] == 1 && a[BURST] == 1,
        );
        hit(
            "BCR: D14 written, not kept",
            bcr && bit(14) && b[CAL_FAILED] == 0,
        );
        hit("BCR: reserved bits", bcr && value & 0xFFFF_5002 != 0);
        hit("initialise", wrote(BCR) && bit(15));
        hit(
            "initialise with other bits",
            wrote(BCR) && bit(15) && value & 0x27FD != 0,
        );
        hit(
            "initialise while settling",
            wrote(BCR) && bit(15) && b[SETTLING] == 1,
        );
        hit(
            "initialise with a selection",
            wrote(BCR) && bit(15) && b[SELECTION] != 0,
        );

        hit("mask written in mid-frame", wrote(4) && b[CURSOR] > 0);
        hit(
            "mask written with unfitted channels",
            wrote(4) && value & !channels(b[KIT]) != 0,
        );
        hit("mask written 0", wrote(4) && a[MASK] == 0);
        hit(
            "mask written one channel",
            wrote(4) && a[MASK].count_ones() == 1,
        );
        hit(
            "mask written all channels",
            wrote(4) && a[MASK] == channels(b[KIT]),
        );
        hit("divisor written above 16 bits", wrote(8) && value > 0xFFFF);

        hit(
            "BOR: size cut below the count",
            bor && a[COUNT] > size(a) && b[COUNT] <= size_b,
        );
        hit(
            "BOR: D8 = 0 drops pending",
            bor && !bit(8) && b[PENDING] == 1,
        );
        hit("BOR: D8 = 0 drops opened", bor && !bit(8) && b[OPENED] == 1);
        hit("BOR: D9 without D8", bor && bit(9) && !bit(8));
        hit(
            "BOR: D9 = 1 makes a request",
            bor && b[PENDING] == 0 && a[PENDING] == 1,
        );
        hit(
            "BOR: D9 = 0 drops a request",
            bor && bit(8) && !bit(9) && b[PENDING] == 1,
        );
        hit(
            "BOR: D9 = 1 while opened",
            bor && bit(8) && bit(9) && !bit(11) && b[OPENED] == 1,
        );
        hit(
            "BOR: D11 and D9 while opened",
            bor && bit(8) && bit(9) && bit(11) && b[OPENED] == 1,
        );
        hit("BOR: D11 with values", bor && bit(11) && b[COUNT] > 0);
        hit(
            "BOR: D11 with first above 0",
            bor && bit(11) && b[FIRST] > 0,
        );
        hit("BOR: D11 in a burst", bor && bit(11) && b[BURST] == 1);
        hit("BOR: D11 in mid-frame", bor && bit(11) && b[CURSOR] > 0);
        hit(
            "BOR: D16 = 0 clears",
            bor && !bit(16) && b[BUFFER_OVERFLOW] == 1,
        );
        hit(
            "BOR: D16 = 1 leaves",
            bor && bit(16) && b[BUFFER_OVERFLOW] == 1,
        );
        hit(
            "BOR: D16 = 1 does not set",
            bor && bit(16) && b[BUFFER_OVERFLOW] == 0,
        );
        hit(
            "BOR: D17 = 0 clears",
            bor && !bit(17) && b[FRAME_OVERFLOW] == 1,
        );
        hit(
            "BOR: D17 = 1 leaves",
            bor && bit(17) && b[FRAME_OVERFLOW] == 1,
        );
        hit(
            "BOR: D17 = 1 does not set",
            bor && bit(17) && b[FRAME_OVERFLOW] == 0,
        );
        hit("BOR: reserved bits", bor && value & 0xFFFC_F440 != 0);

        hit(
            "1Ch: changed Nclk with EXTERNAL",
            wrote(0x1C) && a[NCLK] != b[NCLK] && b[EXTERNAL] == 1,
        );
        hit(
            "1Ch: changed Nclk without EXTERNAL",
            wrote(0x1C) && a[NCLK] != b[NCLK] && b[EXTERNAL] == 0,
        );
        hit(
            "1Ch: same Nclk with EXTERNAL",
            wrote(0x1C) && a[NCLK] == b[NCLK] && b[EXTERNAL] == 1,
        );
        hit(
            "1Ch: only ALT changed, with EXTERNAL",
            wrote(0x1C) && a[NCLK] == b[NCLK] && a[ALT] != b[ALT] && b[EXTERNAL] == 1,
        );
        hit(
            "1Ch: same Nclk while settling",
            wrote(0x1C) && a[NCLK] == b[NCLK] && b[SETTLING] == 1,
        );
        hit("1Ch: reserved bits", wrote(0x1C) && value > 0x3FF);
        hit("settled", done && e[0] == SETTLED);
        hit(
            "settled while calibrating",
            done && e[0] == SETTLED && b[CALIBRATING] == 1,
        );
        hit("calibration passed", done && e[0] == PASSED);
        hit(
            "calibration passed, D14 already set",
            done && e[0] == PASSED && b[CAL_FAILED] == 1,
        );
        hit("calibration failed", done && e[0] == FAILED);

        let same = done && !up && b[SELECTION] == a[SELECTION];
        for (selection, rises, falls) in [
            (
                1,
                "request rises: 1 calibrated",
                "request falls: 1 calibrated",
            ),
            (2, "request rises: 2 empty", "request falls: 2 empty"),
            (
                3,
                "request rises: 3 low quarter",
                "request falls: 3 low quarter",
            ),
            (
                4,
                "request rises: 4 high quarter",
                "request falls: 4 high quarter",
            ),
            (
                5,
                "request rises: 5 burst ready",
                "request falls: 5 burst ready",
            ),
            (
                6,
                "request rises: 6 load ready",
                "request falls: 6 load ready",
            ),
            (
                7,
                "request rises: 7 not load ready",
                "request falls: 7 not load ready",
            ),
        ] {
            let now = same && b[SELECTION] == selection;
            hit(rises, now && b[REQUEST] == 0 && a[REQUEST] == 1);
            hit(
                falls,
                now && b[REQUEST] == 1 && a[REQUEST] == 0 && e[0] != WRITE
                    || now && b[REQUEST] == 1 && a[REQUEST] == 0 && e[1] != BCR
                    || now && b[REQUEST] == 1 && a[REQUEST] == 0 && bit(11),
            );
        }
        let fourth = same && b[SELECTION] == 4;
        hit(
            "request rises: 4 at exactly three quarters",
            fourth && b[REQUEST] == 0 && a[REQUEST] == 1 && 4 * a[COUNT] == 3 * size(a),
        );
        hit(
            "request falls: 4 from exactly three quarters",
            fourth
                && b[REQUEST] == 1
                && a[REQUEST] == 0
                && e[0] != WRITE
                && 4 * b[COUNT] == 3 * size_b,
        );
        hit(
            "selection changed by a write",
            bcr && b[SELECTION] != a[SELECTION],
        );

        let [refused, reference, rate] = *seen.rate;
        let asked = refused == 0;
        hit("rate answered, ALT 0", asked && a[ALT] == 0);
        hit("rate answered, ALT 1", asked && a[ALT] == 1);
        hit("rate answered 0", asked && rate == 0);
        hit("rate answered the reference", asked && rate == reference);
        hit("rate refused 3", refused == 3);
        hit("rate refused 8", refused == 8);
        hit("rate refused 9", refused == 9);
        hit(
            "rate refused 9 with divisor 0",
            refused == 9 && a[DIVISOR] == 0,
        );

        hit("memory of exactly the depth", sound && length == deep);
        hit("memory longer than the depth", sound && length > deep);
        hit("fitted 0", sound && b[FITTED] == 0);
        hit("fitted 1", sound && b[FITTED] == 1);
        hit("fitted 2", sound && b[FITTED] == 2);
        hit("fitted 3", sound && b[FITTED] == 3);
        hit("fitted 4", sound && b[FITTED] == 4);
        hit("fitted 5 to 14", sound && (5..15).contains(&b[FITTED]));
        hit("fitted 15", sound && b[FITTED] == 15);
        hit("kit 0", sound && b[KIT] == 0);
        hit("kit 1", sound && b[KIT] == 1);
        hit("kit 2", sound && b[KIT] == 2);
    }

    pub fn print(&self) {
        println!("coverage (events):");
        for (name, number) in &self.lines {
            let mark = if *number == 0 { "  <-- never" } else { "" };
            println!("  {number:9}  {name}{mark}");
        }
        println!("power-ups, by the settings that are out of range:");
        for (bad, number) in self.power_ups.iter().enumerate() {
            let names: Vec<&str> = (0..SETTINGS.len())
                .filter(|setting| bad >> setting & 1 == 1)
                .map(|setting| SETTINGS[setting].0)
                .collect();
            let names = if bad == 0 { "none" } else { &names.join(", ") };
            let mark = if *number == 0 { "  <-- never" } else { "" };
            println!("  {number:9}  {names}{mark}");
        }
        println!("events on a record that breaks exactly one clause of soundness:");
        for (name, number) in &self.broken {
            println!("  {number:9}  {name}");
        }
    }
}

/// The settings of a power-up that are out of range, a bit for each.
fn bad_settings(event: &Event) -> usize {
    SETTINGS
        .iter()
        .enumerate()
        .map(|(setting, (_, limit))| ((event[1 + setting] > *limit) as usize) << setting)
        .sum()
}
