use crate::output::Lent;
use crate::{disagree, Compared, Disagreement};
use reference::Mended;
use scenes::Rng;

/// Bytes of an output that would do for small files.
const ENOUGH: usize = 4000;

impl Compared {
    /// Mends a file with outputs of several sizes: none; then, unless that is refused
    /// by another number than 11, each of both shorter, one byte short, just enough
    /// and longer. The mended file and the report, or the refusal.
    #[allow(clippy::type_complexity)]
    pub fn mend(
        &mut self,
        file: &[u8],
        rng: &mut Rng,
    ) -> Result<Result<(Vec<u8>, Vec<u8>), Mended>, Disagreement> {
        self.files += 1;
        let (asked, ..) = self.mended(file, 0, 0)?;
        if asked.number != 11 {
            let (again, ..) = self.mended(file, ENOUGH, ENOUGH)?;
            return match again == asked && asked.number != 0 {
                true => Ok(Err(asked)),
                false => disagree(format!("{asked:?} without output, then {again:?}"), file),
            };
        }
        let size = asked.place as usize;
        let (asked_report, ..) = self.mended(file, size, 0)?;
        let report_size = match asked_report.number {
            0 => 0,
            _ => asked_report.place as usize,
        };
        let short = |most: usize, rng: &mut Rng| rng.below(most.max(1));
        let rooms = [
            (short(size, rng), report_size, asked),
            (size - 1, report_size + 1, asked),
            (size - 1, short(report_size, rng), asked),
            (size, short(report_size, rng), asked_report),
            (size + 1, report_size.saturating_sub(1), asked_report),
        ];
        for (room, report_room, expected) in rooms {
            let (answer, ..) = self.mended(file, room, report_room)?;
            if answer != expected {
                let rooms = format!("{room} and {report_room} bytes");
                return disagree(format!("both answer {answer:?} to {rooms}"), file);
            }
        }
        let exact = self.mended(file, size, report_size)?;
        let more = [rng.between(0, 50), rng.between(0, 50)];
        let longer = self.mended(file, size + more[0], report_size + more[1])?;
        let written = Mended {
            size: size as u32,
            report_size: report_size as u32,
            ..Mended::default()
        };
        match exact.0 == written && exact == longer {
            true => Ok(Ok((exact.1, exact.2))),
            false => disagree(
                format!("{asked:?}, then {:?}, {:?}", exact.0, longer.0),
                file,
            ),
        }
    }

    /// Mends by both, with outputs of these sizes: the answer, the file and the report.
    pub fn mended(
        &mut self,
        file: &[u8],
        size: usize,
        report_size: usize,
    ) -> Result<(Mended, Vec<u8>, Vec<u8>), Disagreement> {
        self.outputs += 1;
        let (mut proved, mut plain) = (Lent::new(size), Lent::new(size));
        let (mut report, mut plain_report) = (Lent::new(report_size), Lent::new(report_size));
        let answer = kelompuris::mend(file, proved.part(), report.part());
        let answer = Mended {
            number: answer.number,
            place: answer.place,
            size: answer.size,
            report_size: answer.report_size,
        };
        let expected = reference::mend(file, plain.part(), plain_report.part());
        let about = format!("mend, outputs of {size} and {report_size} bytes");
        self.same(&about, file, answer.number, answer, expected)?;
        self.bytes += proved.len() + report.len();
        if let Some(wrong) = self.wrong(&proved, &plain, answer.size as usize) {
            return disagree(format!("{about}: file, {wrong}"), file);
        }
        let report_written = answer.report_size as usize;
        if let Some(wrong) = self.wrong(&report, &plain_report, report_written) {
            return disagree(format!("{about}: report, {wrong}"), file);
        }
        let bytes = (
            proved.written(answer.size as usize),
            report.written(report_written),
        );
        Ok((answer, bytes.0, bytes.1))
    }
}
