//! Rulers as bytes.

use crate::refusal::{answered, Refusal};
use crate::{Limit, RangedCoordi32};

// As include/culvraod.h declares and describes them.
extern "C" {
    /// The C function behind [`write()`].
    pub fn culv_ruler_write(
        a: i32,
        b: i32,
        p: i32,
        q: i32,
        m: u32,
        out: *mut u8,
        len: usize,
        bytes: *mut usize,
        marks: *mut usize,
    ) -> i32;

    /// The C function behind [`write_inside`].
    pub fn culv_ruler_write_inside(
        a: i32,
        b: i32,
        p: i32,
        q: i32,
        m: u32,
        out: *mut u8,
        len: usize,
        bytes: *mut usize,
        marks: *mut usize,
    ) -> i32;

    /// The C function behind [`write_twisted`].
    pub fn culv_ruler_write_twisted(
        a: i32,
        b: i32,
        p: i32,
        q: i32,
        m: u32,
        twist: u32,
        out: *mut u8,
        len: usize,
        bytes: *mut usize,
        marks: *mut usize,
    ) -> i32;

    /// The C function behind [`write_inside_twisted`].
    pub fn culv_ruler_write_inside_twisted(
        a: i32,
        b: i32,
        p: i32,
        q: i32,
        m: u32,
        twist: u32,
        out: *mut u8,
        len: usize,
        bytes: *mut usize,
        marks: *mut usize,
    ) -> i32;

    /// The C function behind [`upgrade`].
    pub fn culv_ruler_upgrade(
        bytes: *const u8,
        len: usize,
        out: *mut u8,
        out_len: usize,
        written: *mut usize,
    ) -> i32;

    /// The C function behind [`downgrade`].
    pub fn culv_ruler_downgrade(
        bytes: *const u8,
        len: usize,
        out: *mut u8,
        out_len: usize,
        written: *mut usize,
    ) -> i32;

    /// The C function behind [`shift`].
    pub fn culv_ruler_shift(bytes: *mut u8, len: usize, c: i32) -> i32;

    /// What [`read`] tells, without kind and twist.
    pub fn culv_ruler_read(
        bytes: *const u8,
        len: usize,
        a: *mut i32,
        b: *mut i32,
        p: *mut i32,
        q: *mut i32,
        m: *mut u32,
        step: *mut i32,
        marks: *mut usize,
    ) -> i32;

    /// The C function behind [`read`].
    pub fn culv_ruler_read_kind(
        bytes: *const u8,
        len: usize,
        a: *mut i32,
        b: *mut i32,
        p: *mut i32,
        q: *mut i32,
        m: *mut u32,
        step: *mut i32,
        marks: *mut usize,
        kind: *mut u32,
        twist: *mut u32,
    ) -> i32;

    /// The C function behind [`label_of`].
    pub fn culv_ruler_label(
        bytes: *const u8,
        len: usize,
        value: i32,
        start: *mut usize,
        part_len: *mut usize,
    ) -> i32;

    /// The C function behind [`pair_record`].
    pub fn culv_ruler_pair(
        left: *const u8,
        left_len: usize,
        right: *const u8,
        right_len: usize,
        value: i32,
        which: *mut u32,
        start: *mut usize,
        part_len: *mut usize,
    ) -> i32;
}

/// A ruler that was written to the beginning of lent bytes.
#[derive(Clone, Copy, Debug, Default, PartialEq, Eq)]
pub struct Written {
    /// The number of bytes.
    pub bytes: usize,
    /// The number of marks.
    pub marks: usize,
}

/// A ruler that was read.
#[derive(Clone, Copy, Debug, PartialEq, Eq)]
pub struct Ruler {
    /// The axis.
    pub axis: RangedCoordi32,
    /// Its limits on the film.
    pub limit: Limit,
    /// The mark limit.
    pub m: u32,
    /// The distance between neighbouring marks.
    pub step: i32,
    /// The number of marks.
    pub marks: usize,
    /// 1 or 5 for the marks that plotters gives, 3 or 6 for those that stay on the axis.
    pub kind: u32,
    /// The thread's twist, which kinds 5 and 6 tell.
    pub twist: Option<Twist>,
}

/// The twist of the thread. Mirroring turns the one into the other.
#[derive(Clone, Copy, Debug, PartialEq, Eq)]
#[repr(u32)]
pub enum Twist {
    /// S, by the number 0.
    S = 0,
    /// Z, by the number 1.
    Z = 1,
}

/// A C function that writes a ruler.
type Writer =
    unsafe extern "C" fn(i32, i32, i32, i32, u32, *mut u8, usize, *mut usize, *mut usize) -> i32;

fn written_by(
    name: &'static str,
    writer: Writer,
    axis: RangedCoordi32,
    limit: Limit,
    m: u32,
    out: &mut [u8],
) -> Result<Written, Refusal> {
    let mut told = Written::default();
    // SAFETY: `out` is bytes of that length, and the two results are locals of their own.
    let code = unsafe {
        writer(
            axis.0,
            axis.1,
            limit.0,
            limit.1,
            m,
            out.as_mut_ptr(),
            out.len(),
            &mut told.bytes,
            &mut told.marks,
        )
    };
    answered(name, code, told)
}

/// Writes the ruler of the axis, its limits on the film and the mark limit to `out`: of kind 1,
/// with the marks that plotters gives, of which the last may lie past a larger end below zero.
///
/// Refused as [`Refusal::WholeNotAdmitted`], [`Refusal::LimitNotAdmitted`],
/// [`Refusal::NoStep`] or [`Refusal::OutTooShort`].
pub fn write(
    axis: RangedCoordi32,
    limit: Limit,
    m: u32,
    out: &mut [u8],
) -> Result<Written, Refusal> {
    written_by("culv_ruler_write", culv_ruler_write, axis, limit, m, out)
}

/// The same of kind 3, whose marks stay on the axis: the multiples of the step from the smaller end
/// to the larger one.
pub fn write_inside(
    axis: RangedCoordi32,
    limit: Limit,
    m: u32,
    out: &mut [u8],
) -> Result<Written, Refusal> {
    let (name, writer) = ("culv_ruler_write_inside", culv_ruler_write_inside);
    written_by(name, writer, axis, limit, m, out)
}

/// A C function that writes a ruler with a twist.
type TwistedWriter = unsafe extern "C" fn(
    i32,
    i32,
    i32,
    i32,
    u32,
    u32,
    *mut u8,
    usize,
    *mut usize,
    *mut usize,
) -> i32;

fn twisted_by(
    name: &'static str,
    writer: TwistedWriter,
    axis: RangedCoordi32,
    limit: Limit,
    (m, twist): (u32, Twist),
    out: &mut [u8],
) -> Result<Written, Refusal> {
    let mut told = Written::default();
    // SAFETY: `out` is bytes of that length, and the two results are locals of their own.
    let code = unsafe {
        writer(
            axis.0,
            axis.1,
            limit.0,
            limit.1,
            m,
            twist as u32,
            out.as_mut_ptr(),
            out.len(),
            &mut told.bytes,
            &mut told.marks,
        )
    };
    answered(name, code, told)
}

/// What [`write()`] writes, with the twist: kind 5.
pub fn write_twisted(
    axis: RangedCoordi32,
    limit: Limit,
    m: u32,
    twist: Twist,
    out: &mut [u8],
) -> Result<Written, Refusal> {
    let (name, writer) = ("culv_ruler_write_twisted", culv_ruler_write_twisted);
    twisted_by(name, writer, axis, limit, (m, twist), out)
}

/// What [`write_inside`] writes, with the twist: kind 6.
pub fn write_inside_twisted(
    axis: RangedCoordi32,
    limit: Limit,
    m: u32,
    twist: Twist,
    out: &mut [u8],
) -> Result<Written, Refusal> {
    let name = "culv_ruler_write_inside_twisted";
    let writer = culv_ruler_write_inside_twisted;
    twisted_by(name, writer, axis, limit, (m, twist), out)
}

/// A C function that moves a ruler.
type Mover = unsafe extern "C" fn(*const u8, usize, *mut u8, usize, *mut usize) -> i32;

fn moved_by(
    name: &'static str,
    mover: Mover,
    bytes: &[u8],
    out: &mut [u8],
) -> Result<usize, Refusal> {
    let mut written = 0;
    // SAFETY: both have their lengths, apart from each other, and the result is a local.
    let code = unsafe {
        mover(
            bytes.as_ptr(),
            bytes.len(),
            out.as_mut_ptr(),
            out.len(),
            &mut written,
        )
    };
    answered(name, code, written)
}

/// Moves a ruler of kind 1 or 3 over to kind 5 or 6, as S, and tells how many bytes that takes: one
/// more.
///
/// Refused as [`Refusal::NotARuler`] for other bytes, whatever is lent, and else as
/// [`Refusal::OutTooShort`].
pub fn upgrade(bytes: &[u8], out: &mut [u8]) -> Result<usize, Refusal> {
    moved_by("culv_ruler_upgrade", culv_ruler_upgrade, bytes, out)
}

/// Moves an S ruler of kind 5 or 6 back to kind 1 or 3, one byte less.
///
/// Refused as [`upgrade`] is, and as [`Refusal::TwistLost`] for a Z ruler.
pub fn downgrade(bytes: &[u8], out: &mut [u8]) -> Result<usize, Refusal> {
    moved_by("culv_ruler_downgrade", culv_ruler_downgrade, bytes, out)
}

/// Moves a ruler of any kind along the film by `c`, where it lies: the bytes become those that its
/// writer gives for both limits moved. Nothing is worked out anew, so that it takes less time than
/// to write it.
///
/// Refused as [`Refusal::NotARuler`] for other bytes, and as [`Refusal::LimitNotAdmitted`] for a
/// ruler with a limit that would not be admitted.
pub fn shift(bytes: &mut [u8], c: i32) -> Result<(), Refusal> {
    // SAFETY: `bytes` is bytes of that length.
    let code = unsafe { culv_ruler_shift(bytes.as_mut_ptr(), bytes.len(), c) };
    answered("culv_ruler_shift", code, ())
}

/// Reads a ruler of any kind, or refuses bytes that are none as [`Refusal::NotARuler`].
pub fn read(bytes: &[u8]) -> Result<Ruler, Refusal> {
    let (mut axis, mut limit) = (RangedCoordi32(0, 0), Limit(0, 0));
    let (mut m, mut step, mut marks, mut kind, mut twist) = (0, 0, 0, 0, 0);
    // SAFETY: `bytes` has that length, and the results are locals of their own.
    let code = unsafe {
        culv_ruler_read_kind(
            bytes.as_ptr(),
            bytes.len(),
            &mut axis.0,
            &mut axis.1,
            &mut limit.0,
            &mut limit.1,
            &mut m,
            &mut step,
            &mut marks,
            &mut kind,
            &mut twist,
        )
    };
    let ruler = Ruler {
        axis,
        limit,
        m,
        step,
        marks,
        kind,
        twist: (kind > 3).then_some([Twist::S, Twist::Z][(twist == 1) as usize]),
    };
    answered("culv_ruler_read_kind", code, ruler)
}

/// The label of a mark, without its blanks: a part of the ruler, or empty.
pub fn label_of(bytes: &[u8], value: i32) -> &[u8] {
    let (mut start, mut len) = (0, 0);
    // SAFETY: `bytes` has that length, and the two results are locals of their own.
    let code =
        unsafe { culv_ruler_label(bytes.as_ptr(), bytes.len(), value, &mut start, &mut len) };
    let part = answered("culv_ruler_label", code, start..start + len);
    &bytes[part.expect("a look-up is always answered")]
}

/// The record of a mark in the left ruler if it is below zero, otherwise in the right one: a part
/// of that ruler, or empty. The two may be of different kinds.
pub fn pair_record<'a>(left: &'a [u8], right: &'a [u8], value: i32) -> &'a [u8] {
    let (mut which, mut start, mut len) = (0, 0, 0);
    // SAFETY: both rulers have those lengths, and the three results are locals of their own.
    let code = unsafe {
        culv_ruler_pair(
            left.as_ptr(),
            left.len(),
            right.as_ptr(),
            right.len(),
            value,
            &mut which,
            &mut start,
            &mut len,
        )
    };
    let part = answered("culv_ruler_pair", code, start..start + len);
    &[left, right][which as usize][part.expect("a look-up is always answered")]
}

#[cfg(test)]
mod tests {
    use super::*;

    #[test]
    fn a_ruler_is_written_read_and_looked_up() {
        let (axis, limit) = (RangedCoordi32(-15, -3), Limit(0, 120));
        let mut out = [77; 110];
        let told = write(axis, limit, 4, &mut out);
        let (bytes, marks) = (105, 4);
        assert_eq!(told, Ok(Written { bytes, marks }));
        assert_eq!(out[105..], [77; 5]);
        let ruler = &out[..105];
        let step = 5;
        let whole = Ruler {
            axis,
            limit,
            m: 4,
            step,
            marks,
            kind: 1,
            twist: None,
        };
        assert_eq!(read(ruler), Ok(whole));
        assert_eq!(label_of(ruler, -10), b"-10");
        assert_eq!(label_of(ruler, -11), b"");
        assert_eq!(pair_record(ruler, &[], -10), &ruler[45..65]);
        assert_eq!(pair_record(&[], ruler, 0), &ruler[85..105]);
        assert_eq!(pair_record(&[], ruler, -10), b"");
    }

    #[test]
    fn marks_stay_on_the_axis() {
        let mut out = [77; 110];
        let told = write_inside(RangedCoordi32(-15, -3), Limit(0, 120), 4, &mut out);
        let (bytes, marks) = (85, 3);
        assert_eq!(told, Ok(Written { bytes, marks }));
        let ruler = &out[..85];
        assert_eq!(read(ruler).map(|ruler| ruler.kind), Ok(3));
        assert_eq!(label_of(ruler, -5), b"-5");
        assert_eq!(label_of(ruler, 0), b"");
        let mut other = [0; 105];
        write(RangedCoordi32(3, 15), Limit(0, -120), 4, &mut other).unwrap();
        assert_eq!(pair_record(ruler, &other[..85], 10), &other[45..65]);
        assert_eq!(pair_record(ruler, &other[..85], -10), &ruler[45..65]);
    }

    #[test]
    fn rulers_move_over_and_back() {
        let (axis, limit) = (RangedCoordi32(3, 15), Limit(0, 120));
        let (mut old, mut new, mut again) = ([0; 85], [0; 86], [0; 85]);
        write_inside(axis, limit, 4, &mut old).unwrap();
        assert_eq!(upgrade(&old, &mut new[..85]), Err(Refusal::OutTooShort));
        assert_eq!(upgrade(&old, &mut new), Ok(86));
        assert_eq!(
            read(&new).map(|r| (r.kind, r.twist)),
            Ok((6, Some(Twist::S)))
        );
        assert_eq!(label_of(&new, 10), b"10");
        assert_eq!(downgrade(&new, &mut again), Ok(85));
        assert_eq!(again, old);
        assert_eq!(upgrade(&new, &mut again), Err(Refusal::NotARuler));
        let told = write_inside_twisted(axis, limit, 4, Twist::Z, &mut new);
        assert_eq!(told.map(|told| told.bytes), Ok(86));
        assert_eq!(downgrade(&new, &mut again), Err(Refusal::TwistLost));
    }

    #[test]
    fn rulers_move_along_the_film() {
        let axis = RangedCoordi32(-15, -3);
        let (mut ruler, mut moved) = ([0; 106], [0; 106]);
        write_twisted(axis, Limit(0, 120), 4, Twist::Z, &mut ruler).unwrap();
        write_twisted(axis, Limit(-7, 113), 4, Twist::Z, &mut moved).unwrap();
        let before = ruler;
        assert_eq!(shift(&mut ruler, -7), Ok(()));
        assert_eq!(ruler, moved);
        assert_eq!(shift(&mut ruler, 7), Ok(()));
        assert_eq!(ruler, before);
        for far in [1_000_000, i32::MAX, i32::MIN] {
            assert_eq!(shift(&mut ruler, far), Err(Refusal::LimitNotAdmitted));
        }
        assert_eq!(shift(&mut ruler[..105], 0), Err(Refusal::NotARuler));
        assert_eq!(ruler, before);
    }

    #[test]
    fn equal_ends_keep_their_place() {
        let axis = RangedCoordi32(7, 7);
        let (mut ruler, mut moved) = ([0; 45], [0; 45]);
        write(axis, Limit(100, 300), 0, &mut ruler).unwrap();
        write(axis, Limit(105, 305), 0, &mut moved).unwrap();
        assert_eq!(shift(&mut ruler, 5), Ok(()));
        assert_eq!(ruler, moved);
        assert_eq!(ruler[30..34], 100_i32.to_le_bytes());
    }

    #[test]
    fn refusals_write_nothing() {
        let mut out = [77; 104];
        let mut refused = |a, q, m| write(RangedCoordi32(a, -3), Limit(0, q), m, &mut out);
        assert_eq!(
            refused(1_000_000_001, 1_000_001, 0),
            Err(Refusal::WholeNotAdmitted)
        );
        assert_eq!(refused(-15, 1_000_001, 0), Err(Refusal::LimitNotAdmitted));
        assert_eq!(refused(-15, 120, 0), Err(Refusal::NoStep));
        assert_eq!(refused(-15, 120, 4), Err(Refusal::OutTooShort));
        assert_eq!(out, [77; 104]);
        assert_eq!(read(&out), Err(Refusal::NotARuler));
    }
}
