//! What the calls read in one input: `k` in eight bytes, the lengths of the plant,
//! plan and slots, two bytes each, then the plant, the plan, the slots and the list
//! of rates.

const HEADER: usize = 14;

#[derive(Clone, Debug, PartialEq, Eq)]
pub struct Files {
    pub plant: Vec<u8>,
    pub plan: Vec<u8>,
    pub slots: Vec<u8>,
    /// The weeks that have run where the plant is rolled on.
    pub k: u64,
    pub rates: Vec<u8>,
}

impl Files {
    /// Splits any bytes: a length that is too great takes what there is, and a header
    /// that is cut goes on with zeros.
    pub fn split(input: &[u8]) -> Files {
        let (start, rest) = input.split_at(input.len().min(HEADER));
        let mut header = [0; HEADER];
        header[..start.len()].copy_from_slice(start);
        let length = |place| usize::from(u16::from_le_bytes([header[place], header[place + 1]]));
        let (plant, rest) = rest.split_at(length(8).min(rest.len()));
        let (plan, rest) = rest.split_at(length(10).min(rest.len()));
        let (slots, rates) = rest.split_at(length(12).min(rest.len()));
        let [plant, plan, slots, rates] = [plant, plan, slots, rates].map(<[u8]>::to_vec);
        let k = u64::from_le_bytes(header[..8].try_into().expect("eight bytes"));
        Files { plant, plan, slots, k, rates }
    }

    /// The input that splits into these files.
    pub fn join(&self) -> Vec<u8> {
        let Files { plant, plan, slots, k, rates } = self;
        let length = |file: &[u8]| u16::try_from(file.len()).unwrap_or(u16::MAX).to_le_bytes();
        let lengths = [plant, plan, slots].map(|file| length(file)).concat();
        [&k.to_le_bytes()[..], &lengths, plant, plan, slots, rates].concat()
    }
}
