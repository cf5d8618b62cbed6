//! The calls of the library that are measured, through the safe module over its C interface.
//! Their answers are given in the terms that all contenders share.

use aukpocket::Which;
use independent::{NearestWritten, ReelRead, Refused, RefusedOf, Taken};
use std::cmp::Ordering;

pub fn read_reel(reel: &[u8], out: &mut [u8]) -> Result<ReelRead, Refused> {
    read(aukpocket::read_reel(reel, out))
}

/// Reading an Eagle reel.
pub fn read_eagle(reel: &[u8], out: &mut [u8]) -> Result<ReelRead, Refused> {
    read(aukpocket::read_eagle(reel, out))
}

fn read(answer: Result<aukpocket::ReelRead, aukpocket::Refusal>) -> Result<ReelRead, Refused> {
    let aukpocket::ReelRead {
        traces,
        samples,
        length,
        not_normal,
    } = answer.map_err(refused)?;
    Ok(ReelRead {
        traces,
        samples,
        length: length as u64,
        not_normal,
    })
}

pub fn write_reel(record: &[u8], code: u32, out: &mut [u8]) -> Result<Taken, Refused> {
    let aukpocket::Taken {
        traces,
        samples,
        length,
    } = aukpocket::write_reel(record, code, out).map_err(refused)?;
    Ok(Taken {
        traces,
        samples,
        length: length as u64,
    })
}

/// Nearest writing.
pub fn write_nearest(record: &[u8], code: u32, out: &mut [u8]) -> Result<NearestWritten, Refused> {
    let aukpocket::NearestWritten {
        traces,
        samples,
        length,
        changed,
    } = aukpocket::write_nearest(record, code, out).map_err(refused)?;
    Ok(NearestWritten {
        traces,
        samples,
        length: length as u64,
        changed,
    })
}

/// Comparing two records.
pub fn compare(first: &[u8], second: &[u8]) -> Result<Ordering, RefusedOf> {
    aukpocket::compare(first, second).map_err(|refusal| {
        let aukpocket::RecordRefusal {
            which,
            number,
            beside,
        } = refusal;
        let which = match which {
            Which::First => 1,
            Which::Second => 2,
        };
        RefusedOf {
            which,
            number,
            beside,
        }
    })
}

fn refused(refusal: aukpocket::Refusal) -> Refused {
    let aukpocket::Refusal { number, beside } = refusal;
    Refused { number, beside }
}
