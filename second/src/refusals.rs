//! Refusals: one line per check, so that each entry reads as its order list.

/// Gives the refusal `number` if the fault is there.
pub(crate) fn refuse_if(fault: bool, number: u8) -> Result<(), u8> {
    if fault {
        Err(number)
    } else {
        Ok(())
    }
}
