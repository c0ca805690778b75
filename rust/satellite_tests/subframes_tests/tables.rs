// Made by tools/rust of crates/satellite_tests/src/subframes_tests/tables.rt: change that.
//! What the standard's tables say of each field: its name, its bit numbers, whether it is in two's
//! complement, and its scale factor's power of two (IS-GPS-200, sections 20.3.3.3 to 20.3.3.5).

/// A field as a table has it. One in a single part has no bits in its second.
pub(super) struct Entry {
    pub(super) name: &'static str,
    pub(super) parts: [(usize, usize); 2],
    pub(super) is_signed: bool,
    pub(super) exponent: i8,
}

/// An entry: its name, whether it is signed, its bits and its exponent.
macro_rules! entry {
    ($name:literal, $is_signed:literal, $first:literal $last:literal; $exponent:literal) => {
        Entry {
            name: $name,
            parts: [($first, $last), (1, 0)],
            is_signed: $is_signed,
            exponent: $exponent,
        }
    };
    (
        $name:literal, $is_signed:literal, $first:literal $last:literal,
        $next:literal $end:literal; $exponent:literal
    ) => {
        Entry {
            name: $name,
            parts: [($first, $last), ($next, $end)],
            is_signed: $is_signed,
            exponent: $exponent,
        }
    };
}

pub(super) static CLOCK: [Entry; 11] = [
    entry!("wn", false, 61 70; 0),
    entry!("l2", false, 71 72; 0),
    entry!("ura", false, 73 76; 0),
    entry!("health", false, 77 82; 0),
    entry!("iodc", false, 83 84, 211 218; 0),
    entry!("l2p", false, 91 91; 0),
    entry!("tgd", true, 197 204; -31),
    entry!("toc", false, 219 234; 4),
    entry!("af2", true, 241 248; -55),
    entry!("af1", true, 249 264; -43),
    entry!("af0", true, 271 292; -31),
];

pub(super) static EPH2: [Entry; 11] = [
    entry!("iode", false, 61 68; 0),
    entry!("crs", true, 69 84; -5),
    entry!("dn", true, 91 106; -43),
    entry!("m0", true, 107 114, 121 144; -31),
    entry!("cuc", true, 151 166; -29),
    entry!("e", false, 167 174, 181 204; -33),
    entry!("cus", true, 211 226; -29),
    entry!("sqrta", false, 227 234, 241 264; -19),
    entry!("toe", false, 271 286; 4),
    entry!("fit", false, 287 287; 0),
    entry!("aodo", false, 288 292; 0),
];

pub(super) static EPH3: [Entry; 9] = [
    entry!("cic", true, 61 76; -29),
    entry!("om0", true, 77 84, 91 114; -31),
    entry!("cis", true, 121 136; -29),
    entry!("i0", true, 137 144, 151 174; -31),
    entry!("crc", true, 181 196; -5),
    entry!("w", true, 197 204, 211 234; -31),
    entry!("omdot", true, 241 264; -43),
    entry!("iode3", false, 271 278; 0),
    entry!("idot", true, 279 292; -43),
];

pub(super) static ALMANAC: [Entry; 13] = [
    entry!("data", false, 61 62; 0),
    entry!("sv", false, 63 68; 0),
    entry!("e", false, 69 84; -21),
    entry!("toa", false, 91 98; 12),
    entry!("di", true, 99 114; -19),
    entry!("omdot", true, 121 136; -38),
    entry!("health", false, 137 144; 0),
    entry!("sqrta", false, 151 174; -11),
    entry!("om0", true, 181 204; -23),
    entry!("w", true, 211 234; -23),
    entry!("m0", true, 241 264; -23),
    entry!("af0", true, 271 278, 290 292; -20),
    entry!("af1", true, 279 289; -38),
];

pub(super) static UTC: [Entry; 18] = [
    entry!("data", false, 61 62; 0),
    entry!("sv", false, 63 68; 0),
    entry!("al0", true, 69 76; -30),
    entry!("al1", true, 77 84; -27),
    entry!("al2", true, 91 98; -24),
    entry!("al3", true, 99 106; -24),
    entry!("be0", true, 107 114; 11),
    entry!("be1", true, 121 128; 14),
    entry!("be2", true, 129 136; 16),
    entry!("be3", true, 137 144; 16),
    entry!("a1", true, 151 174; -50),
    entry!("a0", true, 181 204, 211 218; -30),
    entry!("tot", false, 219 226; 12),
    entry!("wnt", false, 227 234; 0),
    entry!("dtls", true, 241 248; 0),
    entry!("wnlsf", false, 249 256; 0),
    entry!("dn", false, 257 264; 0),
    entry!("dtlsf", true, 271 278; 0),
];

pub(super) static HEALTH: [Entry; 28] = [
    entry!("data", false, 61 62; 0),
    entry!("sv", false, 63 68; 0),
    entry!("toa", false, 69 76; 12),
    entry!("wna", false, 77 84; 0),
    entry!("h1", false, 91 96; 0),
    entry!("h2", false, 97 102; 0),
    entry!("h3", false, 103 108; 0),
    entry!("h4", false, 109 114; 0),
    entry!("h5", false, 121 126; 0),
    entry!("h6", false, 127 132; 0),
    entry!("h7", false, 133 138; 0),
    entry!("h8", false, 139 144; 0),
    entry!("h9", false, 151 156; 0),
    entry!("h10", false, 157 162; 0),
    entry!("h11", false, 163 168; 0),
    entry!("h12", false, 169 174; 0),
    entry!("h13", false, 181 186; 0),
    entry!("h14", false, 187 192; 0),
    entry!("h15", false, 193 198; 0),
    entry!("h16", false, 199 204; 0),
    entry!("h17", false, 211 216; 0),
    entry!("h18", false, 217 222; 0),
    entry!("h19", false, 223 228; 0),
    entry!("h20", false, 229 234; 0),
    entry!("h21", false, 241 246; 0),
    entry!("h22", false, 247 252; 0),
    entry!("h23", false, 253 258; 0),
    entry!("h24", false, 259 264; 0),
];
