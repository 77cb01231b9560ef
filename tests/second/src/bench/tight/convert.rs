//! Turns a plan of one mark into that of the other: all but the distances and what
//! the table of contents says of them is copied as it is.

use super::distance::Distance;
use super::reader::{check, Bodies};

pub fn widen(plan: &[u8], out: &mut [u8]) -> Result<u64, u8> {
    let bodies = check::<[u8; 2]>(plan)?;
    let (new, length) = copy_around::<_, [u8; 4]>(&bodies, plan, out)?;
    for (new, old) in new.iter_mut().zip(bodies.distances) {
        let number = u16::from_le_bytes(*old);
        *new = if number == u16::MAX { u32::MAX } else { u32::from(number) }.to_le_bytes();
    }
    Ok(length as u64)
}

pub fn narrow(plan: &[u8], out: &mut [u8]) -> Result<u64, u8> {
    let bodies = check::<[u8; 4]>(plan)?;
    // No way becomes 0, and a distance one more than it is.
    let most = bodies.distances.iter().fold(0, |most, distance| most.max(distance.number().wrapping_add(1)));
    if most > u32::from(u16::MAX) {
        return Err(14);
    }
    let (new, length) = copy_around::<_, [u8; 2]>(&bodies, plan, out)?;
    // All bytes of no way are 255, so its lower two are no way again.
    new.iter_mut().zip(bodies.distances).for_each(|(new, &[low, high, ..])| *new = [low, high]);
    Ok(length as u64)
}

/// Writes the plan with distances `New`, all but these; gives their place, and the length
/// of the plan.
fn copy_around<'a, Old: Distance, New: Distance>(
    bodies: &Bodies<Old>,
    plan: &[u8],
    out: &'a mut [u8],
) -> Result<(&'a mut [New], usize), u8> {
    let distances_at = plan.len() - bodies.lists.len() - size_of_val(bodies.distances);
    let distances_length = size_of::<New>() * bodies.distances.len();
    let lists_at = distances_at + distances_length;
    let length = lists_at + bodies.lists.len();
    let out = out.get_mut(..length).ok_or(9)?;
    out[..distances_at].copy_from_slice(&plan[..distances_at]);
    out[lists_at..].copy_from_slice(bodies.lists);
    out[..4].copy_from_slice(&New::MARK);
    out[19..21].copy_from_slice(&(distances_length as u16).to_le_bytes());
    out[22..24].copy_from_slice(&(lists_at as u16).to_le_bytes());
    Ok((New::all_mut(&mut out[distances_at..lists_at]), length))
}
