//! The words of a scene: what a reader fills and a writer is lent.

/// Words of a row of each table.
pub const ROW_WORDS: [usize; 10] = [9, 17, 21, 9, 42, 4, 3, 2, 4, 11];

/// The tables whose rows begin with name place and name length.
pub const NAMED: [usize; 3] = [0, 1, 2];

/// Ten tables with their counts, version, n_texs and the bytes of the names.
#[derive(Clone, Debug, Default, PartialEq, Eq)]
pub struct Sheet {
    pub tables: [Vec<u32>; 10],
    pub counts: [u32; 10],
    pub version: u32,
    pub n_texs: u32,
    pub names: Vec<u8>,
}

impl Sheet {
    /// The tables as slices.
    pub fn slices(&self) -> [&[u32]; 10] {
        std::array::from_fn(|table| self.tables[table].as_slice())
    }

    /// A row of a table.
    pub fn row(&self, table: usize, number: usize) -> &[u32] {
        let words = ROW_WORDS[table];
        &self.tables[table][number * words..(number + 1) * words]
    }

    /// The same, to change it.
    pub fn row_mut(&mut self, table: usize, number: usize) -> &mut [u32] {
        let words = ROW_WORDS[table];
        &mut self.tables[table][number * words..(number + 1) * words]
    }

    /// Counts the rows that the tables hold.
    pub fn count_rows(&mut self) {
        for (table, words) in ROW_WORDS.iter().enumerate() {
            self.counts[table] = (self.tables[table].len() / words) as u32;
        }
    }

    /// Sets the last word of each node to the number of nodes below it, at all
    /// depths, as far as parents stand before their children.
    pub fn count_branches(&mut self) {
        let nodes = self.tables[2].len() / ROW_WORDS[2];
        for number in 0..nodes {
            self.row_mut(2, number)[20] = 0;
        }
        for number in 0..nodes {
            let mut below = number;
            loop {
                let above = self.row(2, below)[2] as usize;
                if above >= below {
                    break;
                }
                self.row_mut(2, above)[20] += 1;
                below = above;
            }
        }
    }

    /// The bytes of the name of a row, if they lie in the names.
    pub fn name(&self, table: usize, number: usize) -> Option<&[u8]> {
        let row = self.row(table, number);
        let end = row[0] as usize + row[1] as usize;
        self.names.get(row[0] as usize..end)
    }

    /// The same words with the names moved to bytes of their own, one after
    /// the other and nothing else.
    pub fn with_own_names(&self) -> Sheet {
        let mut own = self.clone();
        own.names.clear();
        for table in NAMED {
            for number in 0..self.counts[table] as usize {
                let name = self.name(table, number).expect("sound tables");
                own.row_mut(table, number)[0] = own.names.len() as u32;
                own.names.extend_from_slice(name);
            }
        }
        own
    }

    /// The same words with every name empty, and no bytes for names.
    pub fn without_names(&self) -> Sheet {
        let mut bare = self.clone();
        bare.names.clear();
        for table in NAMED {
            for number in 0..self.counts[table] as usize {
                bare.row_mut(table, number)[..2].fill(0);
            }
        }
        bare
    }

    /// Whether all words are the same but the name places, and the names have
    /// the same bytes. Both must hold their counted rows.
    pub fn same_but_name_places(&self, other: &Sheet) -> bool {
        if (self.counts, self.version, self.n_texs) != (other.counts, other.version, other.n_texs) {
            return false;
        }
        (0..10).all(|table| {
            (0..self.counts[table] as usize).all(|number| self.same_row(other, table, number))
        })
    }

    fn same_row(&self, other: &Sheet, table: usize, number: usize) -> bool {
        let (own, others) = (self.row(table, number), other.row(table, number));
        if !NAMED.contains(&table) {
            return own == others;
        }
        let name = self.name(table, number);
        own[1..] == others[1..] && name.is_some() && name == other.name(table, number)
    }
}
