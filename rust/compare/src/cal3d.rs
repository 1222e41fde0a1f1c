//! Skeletons and meshes of cal3d: judging and reading.

use crate::lent::{row_words, sizes_around, some_sizes, Lent};
use crate::{disagree, Compared, Disagreement};
use kelompuris::cal3d::Answer;
use scenes::Rng;

/// A format: what both readers answer to a file, without tables or with.
pub trait Format<const HEAD: usize, const TABLES: usize>: Copy + std::fmt::Debug {
    /// Words of a row of each table.
    const WIDTHS: [usize; TABLES];

    fn proved(self, file: &[u8], lent: Option<&mut [&mut [u32]; TABLES]>) -> Answer<HEAD, TABLES>;

    fn plain(self, file: &[u8], lent: Option<&mut [&mut [u32]; TABLES]>) -> Answer<HEAD, TABLES>;
}

#[derive(Clone, Copy, Debug)]
pub struct Skeleton;

impl Format<5, 2> for Skeleton {
    const WIDTHS: [usize; 2] = [23, 1];

    fn proved(self, file: &[u8], lent: Option<&mut [&mut [u32]; 2]>) -> Answer<5, 2> {
        match lent {
            None => kelompuris::cal3d::judge_skeleton(file),
            Some(tables) => kelompuris::cal3d::read_skeleton(file, tables),
        }
    }

    fn plain(self, file: &[u8], lent: Option<&mut [&mut [u32]; 2]>) -> Answer<5, 2> {
        let answer = match lent {
            None => reference::cal3d::judge_skeleton(file),
            Some(tables) => reference::cal3d::read_skeleton(file, tables),
        };
        Answer {
            number: answer.number,
            place: answer.place,
            head: answer.head,
            counts: answer.counts,
        }
    }
}

/// A mesh, for a skeleton of so many bones.
#[derive(Clone, Copy, Debug)]
pub struct Mesh {
    pub bones: u32,
}

impl Format<2, 6> for Mesh {
    const WIDTHS: [usize; 6] = [9, 12, 2, 2, 4, 3];

    fn proved(self, file: &[u8], lent: Option<&mut [&mut [u32]; 6]>) -> Answer<2, 6> {
        match lent {
            None => kelompuris::cal3d::judge_mesh(file, self.bones),
            Some(tables) => kelompuris::cal3d::read_mesh(file, self.bones, tables),
        }
    }

    fn plain(self, file: &[u8], lent: Option<&mut [&mut [u32]; 6]>) -> Answer<2, 6> {
        let answer = match lent {
            None => reference::cal3d::judge_mesh(file, self.bones),
            Some(tables) => reference::cal3d::read_mesh(file, self.bones, tables),
        };
        Answer {
            number: answer.number,
            place: answer.place,
            head: answer.head,
            counts: answer.counts,
        }
    }
}

impl Compared {
    /// Judges a file and reads it with tables of several sizes; the answer to it
    /// without tables.
    pub fn cal3d<F: Format<H, T>, const H: usize, const T: usize>(
        &mut self,
        format: F,
        file: &[u8],
        rng: &mut Rng,
    ) -> Result<Answer<H, T>, Disagreement> {
        let answer = self.cal3d_judge(format, file)?;
        let sizes = match answer.number {
            0 => sizes_around(row_words(&answer.counts, &F::WIDTHS), rng),
            _ => vec![some_sizes(rng)],
        };
        for sizes in sizes {
            self.cal3d_read(format, file, sizes)?;
        }
        Ok(answer)
    }

    /// Compares, and holds both to an answer that is known.
    pub fn cal3d_known<F: Format<H, T>, const H: usize, const T: usize>(
        &mut self,
        about: &str,
        format: F,
        file: &[u8],
        known: (u32, usize),
        rng: &mut Rng,
    ) -> Result<Answer<H, T>, Disagreement> {
        let answer = self.cal3d(format, file, rng)?;
        match (answer.number, answer.place as usize) == known {
            true => Ok(answer),
            false => disagree(
                format!("{about}: both answer {answer:?}, not {known:?}"),
                file,
            ),
        }
    }

    /// Judges a file; the answer of both.
    pub fn cal3d_judge<F: Format<H, T>, const H: usize, const T: usize>(
        &mut self,
        format: F,
        file: &[u8],
    ) -> Result<Answer<H, T>, Disagreement> {
        self.files += 1;
        let (answer, expected) = (format.proved(file, None), format.plain(file, None));
        let about = format!("judge, {format:?}");
        self.same(&about, file, answer.number, answer, expected)
    }

    /// Reads with tables of these sizes.
    pub fn cal3d_read<F: Format<H, T>, const H: usize, const T: usize>(
        &mut self,
        format: F,
        file: &[u8],
        sizes: [usize; T],
    ) -> Result<Answer<H, T>, Disagreement> {
        let (mut lent, mut plain) = (Lent::new(sizes), Lent::new(sizes));
        let answer = format.proved(file, Some(&mut lent.tables()));
        let expected = format.plain(file, Some(&mut plain.tables()));
        let about = format!("read, {format:?}, with {sizes:?} words");
        self.same(&about, file, answer.number, answer, expected)?;
        let rows = row_words(&answer.counts, &F::WIDTHS);
        self.lent(&about, file, (&lent, &plain), rows)?;
        Ok(answer)
    }
}
