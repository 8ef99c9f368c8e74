//! Refusal numbers (01, "Refusal numbers"; 02, the requests); 0, done, is the Ok of a Result.

#[derive(Clone, Copy, Debug, PartialEq, Eq)]
pub enum Refusal {
    /// 1: lent output too short
    OutputTooShort,
    /// 2: length, CRC or address wrong; the meter keeps silent
    NotHeard,
    /// 10
    UnknownFunction,
    /// 11
    UnknownParameter,
    /// 12: parameter not open to this function
    NotOpen,
    /// 13: length wrong for it
    WrongLength,
    /// 14: level too low, or wrong password
    NoAccess,
    /// 15
    WrongArgument,
    /// 16: a change or a zeroing by address 0
    ByAddressZero,
    /// 20: no ask open
    NoAsk,
    /// 21: ask already open
    AskOpen,
    /// 22: interval or report day not in the log
    NotInLog,
    /// 24: the meter's result is not 0, and is returned
    MeterRefused(u8),
    /// 25: other counts than those measured
    OtherCounts,
    /// 26: a reply of floats with an infinity or no number
    NotFinite,
    /// 27: bench setting, new log's header or request out of range
    OutOfRange,
    /// 28: log with a wrong header, length or cell; record outside its ranges
    Unsound,
    /// 30 to 35: a file's mark, version, header field, length, CRC, cell
    FileMark,
    FileVersion,
    FileHeader,
    FileLength,
    FileCrc,
    FileCell,
    /// 40: a Mercury 206's frame with a wrong length, CRC, address or command
    MercuryFrame,
    /// 41: a half-byte above 9
    NotDecimal,
    /// 50: a reply of the wrong length, which is returned
    ReplyLength(usize),
    /// 51
    ReplyCrc,
    /// 52
    ReplyAddress,
    /// 53: another function than asked for, or a top bit that belies the result
    ReplyFunction,
    /// 54
    ReplyParameter,
}

impl Refusal {
    /// The number of document 01's table.
    pub fn number(self) -> u8 {
        use Refusal::*;
        match self {
            OutputTooShort => 1,
            NotHeard => 2,
            UnknownFunction => 10,
            UnknownParameter => 11,
            NotOpen => 12,
            WrongLength => 13,
            NoAccess => 14,
            WrongArgument => 15,
            ByAddressZero => 16,
            NoAsk => 20,
            AskOpen => 21,
            NotInLog => 22,
            MeterRefused(_) => 24,
            OtherCounts => 25,
            NotFinite => 26,
            OutOfRange => 27,
            Unsound => 28,
            FileMark => 30,
            FileVersion => 31,
            FileHeader => 32,
            FileLength => 33,
            FileCrc => 34,
            FileCell => 35,
            MercuryFrame => 40,
            NotDecimal => 41,
            ReplyLength(_) => 50,
            ReplyCrc => 51,
            ReplyAddress => 52,
            ReplyFunction => 53,
            ReplyParameter => 54,
        }
    }

    /// The result byte of a refusal frame: Appendix B's code for that fault, else 3
    /// (01, after the table; design, "Decided" 4); 16 has that of 14 (02, CR 6). Silent refusals have none.
    pub fn result(self) -> Option<u8> {
        use Refusal::*;
        match self {
            UnknownFunction => Some(1),
            UnknownParameter => Some(2),
            NoAccess | ByAddressZero => Some(4),
            NotOpen | WrongLength | WrongArgument => Some(3),
            _ => None,
        }
    }
}
