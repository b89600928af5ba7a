//! The master's record, its edits and the projection (RECORD.md).

use super::lists::List;
use super::numbers::{self, Address, Nibble, Refusal};

/// A pair of I/O code and ID code.
#[derive(Clone, Copy, Debug, PartialEq, Eq)]
pub struct Codes {
    pub io: Nibble,
    pub id: Nibble,
}

impl Codes {
    /// What stands where nothing was detected or projected.
    pub const NONE: Codes = Codes { io: 15, id: 15 };
}

/// The values of one address.
#[derive(Clone, Copy, Debug)]
pub struct Row {
    /// The detected codes.
    pub cdi: Codes,
    /// The projected codes.
    pub pcd: Codes,
    /// The actual parameter.
    pub pi: Nibble,
    /// The permanent parameter.
    pub pp: Nibble,
    pub idi: Nibble,
    pub odi: Nibble,
    /// Exchanges missed in succession.
    pub misses: u8,
}

impl Row {
    const NEW: Row = Row {
        cdi: Codes::NONE,
        pcd: Codes::NONE,
        pi: 15,
        pp: 15,
        idi: 0,
        odi: 15,
        misses: 0,
    };
}

#[derive(Clone, Copy, Debug, PartialEq, Eq)]
pub enum Mode {
    Configuration,
    Protected,
}

/// A change of what is projected. Any numbers may be given.
#[derive(Clone, Copy, Debug)]
pub enum Edit {
    Project {
        address: u32,
        io_code: u32,
        id_code: u32,
        parameter: u32,
    },
    Unproject {
        address: u32,
    },
    TakeOver,
}

pub struct Record {
    pub mode: Mode,
    pub lds: List,
    pub las: List,
    pub lps: List,
    rows: [Row; 32],
}

impl Record {
    pub fn new() -> Record {
        Record {
            mode: Mode::Configuration,
            lds: List::default(),
            las: List::default(),
            lps: List::default(),
            rows: [Row::NEW; 32],
        }
    }

    pub fn row(&self, address: Address) -> &Row {
        &self.rows[usize::from(address)]
    }

    pub fn row_mut(&mut self, address: Address) -> &mut Row {
        &mut self.rows[usize::from(address)]
    }

    pub fn write_outputs(&mut self, address: u32, value: u32) -> Result<(), Refusal> {
        let address = numbers::module_address(address)?;
        let value = numbers::nibble(value)?;
        self.row_mut(address).odi = 15 - value;
        Ok(())
    }

    pub fn read_inputs(&self, address: u32) -> Result<Nibble, Refusal> {
        numbers::module_address(address).map(|address| self.row(address).idi)
    }

    pub fn set_mode(&mut self, mode: Mode) -> Result<(), Refusal> {
        if mode == Mode::Protected && self.lds.contains(0) {
            return Err(Refusal::AddressZeroDetected);
        }
        self.mode = mode;
        Ok(())
    }

    pub fn config_ok(&self) -> bool {
        !self.lds.contains(0) && self.lds == self.lps && {
            let mut addresses = self.lds.addresses();
            addresses.all(|address| self.row(address).cdi == self.row(address).pcd)
        }
    }

    /// Whether the address may be activated.
    pub fn is_admissible(&self, address: Address) -> bool {
        address != 0
            && self.row(address).cdi.io < 15
            && (self.mode == Mode::Configuration || self.is_as_projected(address))
    }

    fn is_as_projected(&self, address: Address) -> bool {
        self.lps.contains(address) && self.row(address).cdi == self.row(address).pcd
    }

    /// The address was found with these codes.
    pub fn detect(&mut self, address: Address, codes: Codes) {
        self.lds.insert(address);
        self.row_mut(address).cdi = codes;
    }

    /// Nothing stands at the address any more. LAS lies within LDS, so the
    /// address leaves both.
    pub fn forget(&mut self, address: Address) {
        self.las.remove(address);
        self.lds.remove(address);
        self.row_mut(address).cdi = Codes::NONE;
    }

    /// The offline phase: what was seen on the line is as in a new record.
    pub fn forget_all(&mut self) {
        self.lds = List::default();
        self.las = List::default();
        for row in &mut self.rows {
            row.cdi = Codes::NONE;
            row.idi = 0;
            row.misses = 0;
        }
    }

    /// Numbers are tested before the mode, as REFUSALS.md orders them.
    pub fn edit(&mut self, edit: Edit) -> Result<(), Refusal> {
        match edit {
            Edit::Project {
                address,
                io_code,
                id_code,
                parameter,
            } => {
                let address = numbers::module_address(address)?;
                let io = numbers::nibble(io_code)?;
                let id = numbers::nibble(id_code)?;
                let pp = numbers::nibble(parameter)?;
                self.allow_edit()?;
                self.lps.insert(address);
                self.set_projection(address, Codes { io, id }, pp);
            }
            Edit::Unproject { address } => {
                let address = numbers::module_address(address)?;
                self.allow_edit()?;
                self.lps.remove(address);
                self.set_projection(address, Codes::NONE, 15);
            }
            Edit::TakeOver => {
                self.allow_edit()?;
                self.take_over();
            }
        }
        Ok(())
    }

    fn allow_edit(&self) -> Result<(), Refusal> {
        match self.mode {
            Mode::Configuration => Ok(()),
            Mode::Protected => Err(Refusal::WrongPhase),
        }
    }

    fn set_projection(&mut self, address: Address, codes: Codes, parameter: Nibble) {
        let row = self.row_mut(address);
        row.pcd = codes;
        row.pp = parameter;
    }

    /// Row 0 stays as it is. The rows of addresses that are not detected are
    /// copied too.
    fn take_over(&mut self) {
        self.lps = self.lds;
        self.lps.remove(0);
        for row in &mut self.rows[1..] {
            row.pcd = row.cdi;
            row.pp = row.pi;
        }
    }

    /// Opens a projection, makes the edits in it and closes it. Gives how
    /// many edits were accepted.
    pub fn projection(&mut self, edits: impl Iterator<Item = Edit>) -> u32 {
        let former = self.mode;
        self.mode = Mode::Configuration;
        let mut accepted = 0;
        for edit in edits {
            accepted += u32::from(self.edit(edit).is_ok());
        }
        // Without the test for address 0.
        self.mode = former;
        accepted
    }
}

#[cfg(test)]
mod tests {
    use super::*;

    const CODES: Codes = Codes { io: 7, id: 2 };

    fn project(address: u32, io_code: u32) -> Edit {
        Edit::Project {
            address,
            io_code,
            id_code: 2,
            parameter: 5,
        }
    }

    #[test]
    fn outputs_are_stored_inverted() {
        let mut record = Record::new();
        assert_eq!(record.write_outputs(3, 4), Ok(()));
        assert_eq!(record.row(3).odi, 11);
        assert_eq!(record.write_outputs(0, 16), Err(Refusal::BadAddress));
        assert_eq!(record.write_outputs(31, 16), Err(Refusal::BadValue));
        assert_eq!(record.read_inputs(32), Err(Refusal::BadAddress));
    }

    #[test]
    fn protected_mode_needs_a_free_address_zero() {
        let mut record = Record::new();
        assert_eq!(record.set_mode(Mode::Protected), Ok(()));
        record.detect(0, CODES);
        let refused = Err(Refusal::AddressZeroDetected);
        assert_eq!(record.set_mode(Mode::Protected), refused);
        // The end of a projection does not ask.
        assert_eq!(record.projection([project(3, 7)].into_iter()), 1);
        assert_eq!(record.mode, Mode::Protected);
        assert_eq!(record.set_mode(Mode::Configuration), Ok(()));
        assert_eq!(record.set_mode(Mode::Protected), refused);
    }

    #[test]
    fn edits_are_refused_for_their_numbers_first() {
        let mut record = Record::new();
        record.mode = Mode::Protected;
        assert_eq!(record.edit(project(32, 16)), Err(Refusal::BadAddress));
        assert_eq!(record.edit(project(3, 16)), Err(Refusal::BadValue));
        assert_eq!(record.edit(project(3, 7)), Err(Refusal::WrongPhase));
        assert_eq!(record.edit(Edit::TakeOver), Err(Refusal::WrongPhase));
        let edits = [project(3, 7), project(0, 7), Edit::TakeOver];
        assert_eq!(record.projection(edits.into_iter()), 2);
    }

    #[test]
    fn config_ok_compares_what_is_detected_and_projected() {
        let mut record = Record::new();
        assert!(record.config_ok());
        record.detect(3, CODES);
        assert!(!record.config_ok());
        assert_eq!(record.edit(project(3, 7)), Ok(()));
        assert!(record.config_ok());
        assert_eq!(record.edit(project(3, 8)), Ok(()));
        assert!(!record.config_ok());
        assert_eq!(record.edit(Edit::TakeOver), Ok(()));
        assert!(record.config_ok());
        record.detect(0, CODES);
        assert!(!record.config_ok());
    }

    #[test]
    fn taking_over_leaves_row_zero_and_copies_the_undetected() {
        let mut record = Record::new();
        record.detect(0, CODES);
        record.detect(3, CODES);
        record.row_mut(0).pi = 1;
        record.row_mut(4).pi = 9;
        assert_eq!(record.edit(Edit::TakeOver), Ok(()));
        assert_eq!(record.lps.bits(), 8);
        assert_eq!(record.row(0).pcd, Codes::NONE);
        assert_eq!(record.row(0).pp, 15);
        assert_eq!(record.row(3).pcd, CODES);
        assert_eq!(record.row(4).pp, 9);
    }
}
