//! A list of Steps.

use bench::StepRecord;
use model::No;

use super::records::Network;
use super::step::Stepped;

impl Network {
    /// The Steps of a list, in order, with what each answered. The network must be sound, and stay so:
    /// neither is tested, and nothing stands between one Step and the next.
    pub fn steps_untested(
        &mut self,
        list: &[StepRecord],
        results: &mut [Result<Stepped, No>],
    ) -> Result<(), No> {
        if list.len() != results.len() {
            return Err(No::NoSuch);
        }
        for (record, result) in list.iter().zip(results) {
            *result = self.step(record.slot, record.port);
        }
        Ok(())
    }
}
