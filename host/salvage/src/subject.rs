//! What stands behind salvage.h's two calls: libsalvage.a, the plain program, or the statement itself.

/// The calls of salvage.h, named as there without the prefix.
pub trait Subject {
    fn name(&self) -> &'static str;
    fn salvage(&self, image: &[u8], out: &mut [u8]) -> u64;
    fn salvage_report(&self, image: &[u8], out: &mut [u8]) -> u64;
}

/// The proved version, called as its header declares it.
#[cfg(feature = "archive")]
pub struct Archive;

#[cfg(feature = "archive")]
macro_rules! from_image {
    ($call:ident, $image:expr, $out:expr) => {
        // SAFETY: each pointer goes with the length of the slice that it comes from.
        unsafe {
            castribba::declared::$call($image.as_ptr(), $image.len(), $out.as_mut_ptr(), $out.len())
        }
    };
}

#[cfg(feature = "archive")]
impl Subject for Archive {
    fn name(&self) -> &'static str {
        "archive"
    }
    fn salvage(&self, image: &[u8], out: &mut [u8]) -> u64 {
        from_image!(castribba_salvage, image, out)
    }
    fn salvage_report(&self, image: &[u8], out: &mut [u8]) -> u64 {
        from_image!(castribba_salvage_report, image, out)
    }
}

/// The plain program.
pub struct Plain;

impl Subject for Plain {
    fn name(&self) -> &'static str {
        "plain"
    }
    fn salvage(&self, image: &[u8], out: &mut [u8]) -> u64 {
        plain::castribba_salvage(image, out)
    }
    fn salvage_report(&self, image: &[u8], out: &mut [u8]) -> u64 {
        plain::castribba_salvage_report(image, out)
    }
}

/// The statement behind the same calls: only its laws are tried.
pub struct Statement;

fn written(answer: oracle::expected::Answer, out: &mut [u8]) -> u64 {
    let answer = answer.in_room(out.len());
    out[..answer.bytes.len()].copy_from_slice(&answer.bytes);
    (u64::from(answer.number) << 32) + answer.bytes.len() as u64
}

impl Subject for Statement {
    fn name(&self) -> &'static str {
        "statement"
    }
    fn salvage(&self, image: &[u8], out: &mut [u8]) -> u64 {
        written(oracle::expected::salvaged(image), out)
    }
    fn salvage_report(&self, image: &[u8], out: &mut [u8]) -> u64 {
        written(oracle::expected::salvage_report(image), out)
    }
}
