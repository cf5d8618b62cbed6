//! Short names of the assigned header fields, for `look` and for refusals.

use std::fmt::Write;

/// A field: the byte number at which it begins, its short name, and what it holds.
pub struct Field(pub u32, pub &'static str, pub &'static str);

/// The 27 fields of the binary header.
pub const BINARY: [Field; 27] = [
    Field(3201, "job", "job identification number"),
    Field(3205, "line", "line number"),
    Field(3209, "reel", "reel number"),
    Field(3213, "traces", "data traces a record"),
    Field(3215, "auxiliaries", "auxiliary traces a record"),
    Field(
        3217,
        "interval",
        "sample interval of this reel, microseconds",
    ),
    Field(
        3219,
        "field-interval",
        "sample interval of the field recording",
    ),
    Field(3221, "samples", "samples a trace of this reel, N"),
    Field(
        3223,
        "field-samples",
        "samples a trace of the field recording",
    ),
    Field(3225, "code", "format code of the samples"),
    Field(3227, "fold", "CDP fold"),
    Field(3229, "sorting", "trace sorting code"),
    Field(3231, "sum", "vertical sum code"),
    Field(3233, "sweep-start", "sweep frequency at start"),
    Field(3235, "sweep-end", "sweep frequency at end"),
    Field(3237, "sweep-length", "sweep length, milliseconds"),
    Field(3239, "sweep-type", "sweep type code"),
    Field(3241, "sweep-channel", "trace number of the sweep channel"),
    Field(
        3243,
        "taper-start",
        "sweep taper length at start, milliseconds",
    ),
    Field(3245, "taper-end", "sweep taper length at end, milliseconds"),
    Field(3247, "taper-type", "taper type"),
    Field(3249, "correlated", "correlated data traces"),
    Field(3251, "gain-recovered", "binary gain recovered"),
    Field(3253, "recovery", "amplitude recovery method"),
    Field(3255, "system", "measurement system, 1 metres, 2 feet"),
    Field(3257, "polarity", "impulse signal polarity"),
    Field(3259, "vibrator", "vibratory polarity code"),
];

/// The 71 fields of a trace header.
pub const TRACE: [Field; 71] = [
    Field(1, "line-trace", "trace number within the line"),
    Field(5, "reel-trace", "trace number within the reel"),
    Field(9, "field-record", "original field record number"),
    Field(13, "field-trace", "trace number within the field record"),
    Field(17, "source-point", "energy source point number"),
    Field(21, "cdp", "CDP ensemble number"),
    Field(25, "cdp-trace", "trace number within the CDP ensemble"),
    Field(29, "kind", "trace identification code"),
    Field(31, "summed", "vertically summed traces"),
    Field(33, "stacked", "horizontally stacked traces"),
    Field(35, "use", "data use, 1 production, 2 test"),
    Field(37, "offset", "distance from source to group"),
    Field(41, "group-elevation", "receiver group elevation"),
    Field(45, "source-elevation", "surface elevation at source"),
    Field(49, "source-depth", "source depth below surface"),
    Field(53, "group-datum", "datum elevation at group"),
    Field(57, "source-datum", "datum elevation at source"),
    Field(61, "source-water", "water depth at source"),
    Field(65, "group-water", "water depth at group"),
    Field(69, "elevation-scalar", "scalar of elevations and depths"),
    Field(71, "coordinate-scalar", "scalar of coordinates"),
    Field(73, "source-x", "source coordinate X"),
    Field(77, "source-y", "source coordinate Y"),
    Field(81, "group-x", "group coordinate X"),
    Field(85, "group-y", "group coordinate Y"),
    Field(89, "units", "coordinate units, 1 length, 2 seconds of arc"),
    Field(91, "weathering", "weathering velocity"),
    Field(93, "subweathering", "subweathering velocity"),
    Field(95, "source-uphole", "uphole time at source"),
    Field(97, "group-uphole", "uphole time at group"),
    Field(99, "source-static", "source static correction"),
    Field(101, "group-static", "group static correction"),
    Field(103, "static", "total static applied"),
    Field(105, "lag-a", "lag time A, milliseconds"),
    Field(107, "lag-b", "lag time B, milliseconds"),
    Field(109, "delay", "delay recording time, milliseconds"),
    Field(111, "mute-start", "mute time at start"),
    Field(113, "mute-end", "mute time at end"),
    Field(
        115,
        "samples",
        "samples in this trace; the reel's where it is 0",
    ),
    Field(
        117,
        "interval",
        "sample interval of this trace; the reel's where it is 0",
    ),
    Field(119, "gain-type", "gain type of the field instruments"),
    Field(121, "gain-constant", "instrument gain constant"),
    Field(123, "initial-gain", "instrument early or initial gain, dB"),
    Field(125, "correlated", "correlated, 1 no, 2 yes"),
    Field(127, "sweep-start", "sweep frequency at start"),
    Field(129, "sweep-end", "sweep frequency at end"),
    Field(131, "sweep-length", "sweep length, milliseconds"),
    Field(133, "sweep-type", "sweep type"),
    Field(
        135,
        "taper-start",
        "sweep taper length at start, milliseconds",
    ),
    Field(137, "taper-end", "sweep taper length at end, milliseconds"),
    Field(139, "taper-type", "taper type"),
    Field(141, "alias-frequency", "alias filter frequency"),
    Field(143, "alias-slope", "alias filter slope"),
    Field(145, "notch-frequency", "notch filter frequency"),
    Field(147, "notch-slope", "notch filter slope"),
    Field(149, "low-cut", "low cut frequency"),
    Field(151, "high-cut", "high cut frequency"),
    Field(153, "low-slope", "low cut slope"),
    Field(155, "high-slope", "high cut slope"),
    Field(157, "year", "year of recording"),
    Field(159, "day", "day of the year"),
    Field(161, "hour", "hour of the day"),
    Field(163, "minute", "minute of the hour"),
    Field(165, "second", "second of the minute"),
    Field(167, "time-basis", "time basis, 1 local, 2 GMT, 3 other"),
    Field(169, "weighting", "trace weighting factor"),
    Field(
        171,
        "roll-group",
        "group number of roll switch position one",
    ),
    Field(
        173,
        "first-group",
        "group number of the field record's first trace",
    ),
    Field(
        175,
        "last-group",
        "group number of the field record's last trace",
    ),
    Field(177, "gap", "gap size, groups dropped"),
    Field(179, "overtravel", "overtravel with taper, 1 down, 2 up"),
];

/// The fields of a trace's header, or of the binary header for trace 0.
pub fn header(trace: usize) -> &'static [Field] {
    if trace == 0 {
        &BINARY
    } else {
        &TRACE
    }
}

/// What the field of a trace header that begins at a byte number holds.
pub fn meaning(byte_number: usize) -> &'static str {
    TRACE
        .iter()
        .find(|field| field.0 as usize == byte_number)
        .map_or("unassigned bytes", |field| field.2)
}

/// The byte number of a field by its name. `count` is another name of `samples`.
pub fn byte_number(header: &[Field], name: &str) -> Option<u32> {
    let name = if name == "count" { "samples" } else { name };
    header
        .iter()
        .find(|field| field.1 == name)
        .map(|field| field.0)
}

/// The fields of a header, a line each, for the help.
pub fn list(header: &[Field]) -> String {
    let mut text = String::new();
    for Field(byte_number, name, meaning) in header {
        let _ = writeln!(text, "  {byte_number:>4}  {name:<18} {meaning}");
    }
    text
}
