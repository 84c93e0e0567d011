// Request lines of the rival's blocks: good and bad ones by chance, and their part of the sweep.
use super::{Maker, BAD};
use std::io::Write;

/// The dropout, the ends of the other codes, 0 and its neighbours, and what becomes one of these where its two bytes are turned.
const CODES: [i16; 10] = [-32768, -32767, -1, 0, 1, 32767, 128, 384, 256, -129];
const MOST_PLACES: u64 = 256;
/// The most bytes of a block by chance, so that the line is not too long.
const MOST_BYTES: u64 = 4050;
/// The same for a list that is stored: the program `replay` reads at most 512 words of a request.
const MOST_STORED: u64 = 480;
const BAD_PAIRS: [&str; 18] = [
    "0", "040", "040100000", "0G", "g0", "0x04", "--", "-0", "0-", "-04010000", "04010000-", "+401", "0401.0", "04,01", "/4", "0:", "@4", "4`",
];

/// Where the samples end.
fn end(header: u64, channels: u64, samples: u64) -> u64 {
    header + 2 * channels * samples
}

/// Tokens.
impl<W: Write> Maker<W> {
    /// Bytes, with digits of one case or of both.
    fn pairs(&mut self, bytes: &[u8]) {
        if bytes.is_empty() {
            return self.word("-");
        }
        let small = self.dice.pick(&[0, 0, 0, 0, 1, 2]);
        self.line.push(b' ');
        for digit in bytes.iter().flat_map(|b| [b >> 4, b & 15]) {
            let digits = if self.dice.below(2) < small { b"0123456789abcdef" } else { b"0123456789ABCDEF" };
            self.line.push(digits[digit as usize]);
        }
    }

    fn rival(&mut self, channel: u64, places: u64, block: &[u8]) {
        self.word("rival");
        self.whole(channel);
        self.whole(places);
        self.pairs(block);
    }

    fn code(&mut self) -> i16 {
        if self.dice.one_in(3) { self.dice.pick(&CODES) } else { self.dice.next() as i16 }
    }

    /// A block of so many bytes with this start, any bytes up to the header's end, and codes behind them.
    fn rival_block(&mut self, header: u64, channels: u64, samples: u64, length: u64) -> Vec<u8> {
        let mut block = vec![header as u8, channels as u8, samples as u8, (samples >> 8) as u8];
        while block.len() < header as usize {
            block.push(self.dice.next() as u8);
        }
        while block.len() < length as usize {
            block.extend(self.code().to_le_bytes());
        }
        block.truncate(length as usize);
        block
    }

    fn most_bytes(&self) -> u64 {
        if self.plain { MOST_STORED } else { MOST_BYTES }
    }
}

/// Good lines by chance.
impl<W: Write> Maker<W> {
    /// A block that a recorder of theirs could write, of few samples as a rule, and one of its channels.
    fn usual_rival(&mut self) {
        let channels = self.dice.from(1, 8);
        let header = match self.dice.below(12) {
            0 => self.dice.from(4, 255),
            1..=5 => 4,
            _ => self.dice.from(4, 20),
        };
        let behind = if self.dice.one_in(4) { self.dice.from(1, 20) } else { 0 };
        let room = (self.most_bytes() - header - behind) / (2 * channels);
        let samples = match self.dice.below(200) {
            0 => self.dice.from(0, room),
            1 => self.dice.from(MOST_PLACES - 1, MOST_PLACES + 1),
            2 | 3 => self.dice.from(0, MOST_PLACES),
            4..=29 => self.dice.from(0, 40),
            _ => self.dice.from(0, 8),
        };
        let samples = samples.min(room);
        let places = self.usual_places(samples);
        let block = self.rival_block(header, channels, samples, end(header, channels, samples) + behind);
        let channel = self.dice.below(channels);
        self.rival(channel, places, &block)
    }

    /// As a rule at least so many as samples.
    fn usual_places(&mut self, samples: u64) -> u64 {
        let samples = samples.min(MOST_PLACES);
        match self.dice.below(60) {
            0 => 0,
            1 => MOST_PLACES,
            2 => self.dice.from(samples, MOST_PLACES),
            3..=5 => samples.saturating_sub(1),
            6..=35 => samples,
            _ => (samples + self.dice.from(1, 5)).min(MOST_PLACES),
        }
    }

    /// At every limit and next to it. Each part is in order as a rule, so that no refusal is due, or one, or several at once.
    fn edge_rival(&mut self) {
        let (header, samples) = (self.dice.from(4, 8), self.dice.from(0, 4));
        let channels = if self.dice.one_in(4) { self.dice.pick(&[0, 1, 8, 9, 255]) } else { self.dice.from(1, 8) };
        let end = end(header, channels, samples).min(self.most_bytes());
        let length = match self.dice.below(12) {
            0 => end - 1,
            1 => end - 2,
            2 => end + 1,
            3 => self.dice.from(0, 5),
            4 => self.dice.from(0, end),
            _ => end,
        };
        let stated = if self.dice.one_in(6) { self.dice.pick(&[65535, 65534, 32768, 8192, 4096, 256, 255, samples + 1]) } else { samples };
        let mut block = self.rival_block(header, channels, stated, length);
        if !block.is_empty() && self.dice.one_in(4) {
            block[0] = self.dice.pick(&[0, 1, 3, 4, 255, length - 1, length, length, length + 1]) as u8;
        }
        let (channel, places) = (self.edge_channel(channels), self.edge_places(stated));
        self.rival(channel, places, &block)
    }

    fn edge_channel(&mut self, channels: u64) -> u64 {
        match self.dice.below(12) {
            0 | 1 => channels,
            2 => channels + 1,
            3 => self.dice.pick(&[8, 9, 255, 256, 65536, 999999999, 999999999]),
            4 | 5 => channels.saturating_sub(1),
            _ => self.dice.below(channels.clamp(1, 8)),
        }
    }

    fn edge_places(&mut self, samples: u64) -> u64 {
        let places = match self.dice.below(12) {
            0 | 1 => samples.saturating_sub(1),
            2 => 0,
            3 | 4 => samples + 1,
            5 if self.dice.one_in(4) => self.dice.from(0, MOST_PLACES),
            _ => samples,
        };
        if places > MOST_PLACES { self.dice.pick(&[0, 1, 4, 255, MOST_PLACES]) } else { places }
    }

    pub(super) fn some_rival(&mut self) {
        if self.dice.one_in(2) { self.usual_rival() } else { self.edge_rival() }
    }

    pub(super) fn rivals(&mut self) {
        for _ in 0..self.dice.from(1, 20) {
            self.some_rival();
            self.finish();
        }
    }
}

/// Bad lines.
impl<W: Write> Maker<W> {
    /// Each token is good or not, and there is one too few or too many at times, so that several errors are due at once.
    pub(super) fn bad_rival(&mut self) {
        let (bad, bytes) = (self.dice.pick(&BAD), self.dice.pick(&BAD_PAIRS));
        let (channel, places) = (self.dice.below(9), self.dice.below(4));
        self.word("rival");
        if self.dice.one_in(5) { self.word(bad) } else { self.whole(channel) }
        match self.dice.below(8) {
            0 => self.word(bad),
            1 => self.whole(257 + places * 300),
            _ => self.whole(places),
        }
        let block = self.rival_block(4, 1, places, end(4, 1, places));
        match self.dice.below(8) {
            0 => self.word(bytes),
            1 | 2 => self.bad_digit(&block),
            3..=5 => {
                self.pairs(&block);
                self.line.pop();
            }
            6 => self.pairs(&block),
            _ => {}
        }
        if self.dice.one_in(8) {
            self.word("00");
        }
    }

    /// Bytes with one digit that is none.
    fn bad_digit(&mut self, block: &[u8]) {
        let start = self.line.len() + 1;
        self.pairs(block);
        let place = self.dice.from(start as u64, self.line.len() as u64 - 1) as usize;
        self.line[place] = self.dice.pick(b"/:@G`gzZ-+.x");
    }

    /// More places than 256, with good bytes or bad ones.
    pub(super) fn too_many_places(&mut self, many: u64) {
        let channel = self.dice.below(9);
        let block = self.rival_block(4, 1, 2, 8);
        self.rival(channel, many, &block);
        if self.dice.one_in(2) {
            self.line.pop();
        }
    }
}

/// The sweep. A list that is stored gets a part of it.
impl<W: Write> Maker<W> {
    pub(super) fn sweep_rivals(&mut self) {
        self.sweep_rival_samples();
        self.sweep_rival_refusals();
        self.sweep_rival_records();
        self.sweep_rival_errors();
        self.sweep_short_rivals();
        self.sweep_rival_limits();
        if !self.plain {
            self.sweep_codes();
            self.sweep_long_rivals();
        }
    }

    /// Every special code; each channel of one, three and eight; skipped bytes, bytes behind, no samples; outputs of all lengths.
    fn sweep_rival_samples(&mut self) {
        let codes = "04010A000080018001000000FFFFFF7F80007FFF00018001";
        for places in [9, 10, 11, 256] {
            self.lines(&[&format!("rival 0 {places} {codes}"), &format!("rival 0 {places} {codes}0080")]);
        }
        for channel in [0, 1, 2, 3, 999999999] {
            self.lines(&[&format!("rival {channel} 2 0403020000000100008011ff22FF33ff")]);
            self.lines(&[&format!("rival {channel} 3 07030200aabbcc000001000080AABBCCDDEEFF0400")]);
        }
        for channel in 0..10 {
            self.lines(&[&format!("rival {channel} 2 0408020001000200030004000500060007000800F1FFF2FFF3FFF4FFF5FFF6FFF7FFF8FF")]);
        }
        for channel in [0, 2, 3, 4, 7, 8] {
            self.lines(&[&format!("rival {channel} 1 0A08010000800080008000800180FF7F00800080008000800080")]);
        }
        for block in ["04010000", "04080000", "0501000000", "05080000FF0080", "080100000401010001", "0401000000800080"] {
            self.lines(&[&format!("rival 0 0 {block}"), &format!("rival 7 2 {block}")]);
        }
    }

    /// Each refusal, and of several that are due the first.
    fn sweep_rival_refusals(&mut self) {
        for block in ["-", "04", "0401", "040100", "00010000", "03010000", "030101000100", "05010000", "06010000FF", "FF010000", "ff0109000000"] {
            self.lines(&[&format!("rival 0 1 {block}")]);
        }
        for block in ["04000000", "04090000", "04FF0000", "0400010001", "04800000", "040901000100020003000400050006000700080009000A00"] {
            self.lines(&[&format!("rival 0 1 {block}"), &format!("rival 255 0 {block}")]);
        }
        for block in ["04010100", "0401010001", "040101000100", "05010100010002", "0401FFFF0100", "0408FEFF", "040100800100", "040800200100", "040100010100"] {
            self.lines(&[&format!("rival 0 1 {block}"), &format!("rival 0 0 {block}"), &format!("rival 1 1 {block}"), &format!("rival 9 0 {block}")]);
        }
        self.lines(&["rival 9 0 -", "rival 9 0 03FFFFFF", "rival 9 0 05FFFFFF", "rival 9 0 04FFFFFF"]);
        self.lines(&["rival 256 1 040101000100", "rival 65536 1 040101000100"]);
    }

    /// The current filters stay, after a block that is accepted, one that is refused and a line in error.
    fn sweep_rival_records(&mut self) {
        self.lines(&["lowpass 2 499 1000", "taps 0.5 0.25", "cstep 1", "fstep 4", "rival 0 1 040101000080", "cstep 1", "fstep 8"]);
        self.lines(&["rival 1 1 040101000080", "cstep 1", "fstep 8", "rival 0 1 0", "cstep 1", "fstep 8"]);
    }

    /// Of several errors the first that is due, before any refusal; bad tokens in each place.
    fn sweep_rival_errors(&mut self) {
        self.lines(&["rival", "rival 0", "rival 0 1", "rival x 257", "rival 0 1 04 01", "rival x 257 0 0", "rival 0 1 - -"]);
        self.lines(&["Rival 0 0 -", "riva 0 0 -", "rivals 0 0 -"]);
        self.lines(&["rival x 257 0", "rival x x 0", "rival 0 x 0", "rival 0 257 0", "rival 0 257 x", "rival 9 257 -", "rival 0 256 0", "rival 0 256 -"]);
        self.lines(&["rival 1000000000 1 -", "rival 0 999999999 -", "rival 0 1000000000 -", "rival 000000000 000000001 04010000", "rival 0 0000000001 -"]);
        for bytes in BAD_PAIRS {
            self.lines(&[&format!("rival 0 1 {bytes}")]);
        }
        for (i, word) in BAD.iter().enumerate() {
            let mut tokens = ["rival", "0", "1", "040101000100"];
            tokens[1 + i % 3] = word;
            self.lines(&[&tokens.join(" ")]);
        }
    }

    /// Every block of 0 to 5 of these bytes; the channel and the places take turns.
    fn sweep_short_rivals(&mut self) {
        const BYTES: [u8; 7] = [0x00, 0x01, 0x04, 0x05, 0x08, 0x09, 0xFF];
        let mut turn = 0;
        for length in 0..=5 {
            for number in 0..7usize.pow(length) {
                turn += 1;
                if self.plain && turn % 809 != 0 {
                    continue;
                }
                let block: Vec<u8> = (0..length).map(|i| BYTES[number / 7usize.pow(i) % 7]).collect();
                self.rival([0, 1, 4, 7, 8][turn % 5], turn as u64 % 3, &block);
                self.end();
            }
        }
    }

    /// Headers of 4 and 5 bytes, 0 to 9 channels, 0 to 3 samples; the length, the channel and the places each at its limit and one off.
    fn sweep_rival_limits(&mut self) {
        for number in (0..2160u64).step_by(if self.plain { 64 } else { 1 }) {
            let mut left = number;
            let mut turn = |n| {
                let digit = left % n;
                left /= n;
                digit
            };
            let (behind, channel, places) = (turn(3), turn(3), turn(3));
            let (samples, channels, header) = (turn(4), turn(10), 4 + turn(2));
            let block = self.rival_block(header, channels, samples, end(header, channels, samples) + behind - 1);
            self.rival((channels + channel).saturating_sub(1), (samples + places).saturating_sub(1), &block);
            self.end();
        }
    }

    /// Every code once, 256 to a line, in a channel of 1 to 3.
    fn sweep_codes(&mut self) {
        for high in 0..=255 {
            let channels = 1 + high % 3;
            let channel = high / 3 % channels;
            let mut block = self.rival_block(4, channels, 256, end(4, channels, 256));
            for low in 0..=255 {
                let place = end(4, channels, low) + 2 * channel;
                block[place as usize] = low as u8;
                block[place as usize + 1] = high as u8;
            }
            self.rival(channel, 256, &block);
            self.end();
        }
    }

    /// The longest line and one that is too long; more samples than any output has places.
    fn sweep_long_rivals(&mut self) {
        for (channels, samples, length) in [(8, 255, 4090), (8, 255, 4091), (1, 2043, 4090), (1, 257, 518), (7, 256, 3588), (8, 256, 4090)] {
            let block = self.rival_block(4, channels, samples, length);
            self.word(&format!("rival {} 256", channels - 1));
            self.pairs(&block);
            self.end();
        }
    }
}
