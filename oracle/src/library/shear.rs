//! resolve_divisor_32, get_shear_params and set_affine_mv2d.

use super::Library;
use crate::answer::{Answer, Buffer, Room};
use crate::ask::Answers;
use crate::calls::shear::{GetShearParams, ResolveDivisor32, SetAffineMv2d};
use crate::lend::{Ground, JUNK, lend};

impl<A: archive::ResolveDivisor32, G: Ground> Answers<ResolveDivisor32> for Library<A, G> {
    const REFUSES: bool = true;
    const THERE: bool = A::THERE;

    fn answer(call: &ResolveDivisor32) -> Answer {
        let mut recip = lend::<G, _>("recip", &call.recip);
        let (mut y, mut shift) = (lend::<G, _>("y", &[JUNK]), lend::<G, _>("shift", &[JUNK]));
        let number = unsafe { A::call(call.d, recip.start(), recip.len(), y.start(), shift.start()) };
        let harm = recip.kept().or(y.guards()).or(shift.guards());
        Answer { number, results: vec![y.now()[0] as i64, shift.now()[0] as i64], buffers: vec![], harm }
    }
}

impl<A: archive::GetShearParams, G: Ground> Answers<GetShearParams> for Library<A, G> {
    const REFUSES: bool = true;
    const THERE: bool = A::THERE;

    // The record is lent as it came, so that a refusal has to leave it.
    fn answer(GetShearParams { record, recip }: &GetShearParams) -> Answer {
        let mut matrix = lend::<G, _>("matrix", &record.matrix);
        let mut abcd = lend::<G, _>("abcd", &record.abcd);
        let came = [record.affine];
        let mut affine = lend::<G, _>("affine", &came);
        let mut recip = lend::<G, _>("recip", recip);
        let (entries, shears, table) = (matrix.start().cast(), abcd.start().cast(), recip.start());
        let number = unsafe { A::call(entries, shears, affine.start(), table, recip.len()) };
        let buffers = vec![
            Buffer::Ints(Room(matrix.now().to_vec())),
            Buffer::Shorts(Room(abcd.now().to_vec())),
            Buffer::Ints(Room(affine.now().to_vec())),
        ];
        let harm = matrix.guards().or(abcd.guards()).or(affine.guards()).or(recip.kept());
        Answer { number, results: vec![], buffers, harm }
    }
}

impl<A: archive::SetAffineMv2d, G: Ground> Answers<SetAffineMv2d> for Library<A, G> {
    const REFUSES: bool = true;
    const THERE: bool = A::THERE;

    fn answer(call: &SetAffineMv2d) -> Answer {
        let SetAffineMv2d { bw4, bh4, mv_x, mv_y, bx4, by4, .. } = *call;
        let mut matrix = lend::<G, _>("matrix", &call.matrix);
        let number = unsafe { A::call(bw4, bh4, mv_x, mv_y, matrix.start().cast(), bx4, by4) };
        let buffers = vec![Buffer::Ints(Room(matrix.now().to_vec()))];
        Answer { number, results: vec![], buffers, harm: matrix.guards() }
    }
}
