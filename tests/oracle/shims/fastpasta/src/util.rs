//! Stand-in for crate::util: the names that the given files ask of it.
pub(crate) use {
    crate::{
        analyze::validators::its::{
            self,
            cdp_running::CdpRunningValidator,
            data_words::{ib::IbDataWordValidator, ob::ObDataWordValidator, DataWordSanityChecker},
            its_payload_fsm_cont::{self, ItsPayloadFsmContinuous},
            lib::ItsPayloadWord,
            status_word::util::StatusWordContainer,
        },
        config::{prelude::*, ChecksOpt, CustomChecksOpt, FilterOpt},
        stats::StatType,
        words::its::{
            data_words::*,
            status_words::util::*,
            status_words::{cdw::Cdw, ddw::Ddw0, ihw::Ihw, tdh::Tdh, tdt::Tdt, StatusWord},
            Stave,
        },
    },
    alice_protocol_reader::prelude::*,
    byteorder::{ByteOrder, LittleEndian},
    flume,
    sm::sm,
    std::{fmt, io, marker::PhantomData, ops::RangeInclusive, slice::ChunksExact},
};
