//! All types that the library exports can be sent to another thread, be shared by threads, and be
//! shown. A program with a receiver in each thread, or with one behind a lock, builds so.

use core::fmt::Debug;
use seldomplough::{
    AlmanacField, AlmanacSet, Answer, BitNews, BitSync, Cell, Choice, ChoiceFault, ClockField,
    CodeBook, Command, Counts, DataSets, Doppler, Eph2Field, Eph3Field, Event, Field, Format,
    Found, FrameSync, Global, HalfChip, HealthField, Message, MessageNews, NumberedSamples,
    OpenFault, PackedSamples, Packing, PackingFault, Page, Phase, Plan, PlanFault, Prn, PrnFault,
    Receiver, Recipe, Refusal, Report, Reports, Search, SearchRoom, Settings, SettingsFault,
    Signal, SlotEvent, SlotNo, SlotState, Subframe, TooManySamples, UtcField, ValueKind,
};

/// What is seen of a type as it builds.
fn is_of_threads<T: Debug + Send + Sync>() {}

/// Says each type once.
macro_rules! all_of_threads {
    ($($of:ident)+) => {
        $(is_of_threads::<$of>();)+
    };
}

#[test]
fn exported_types_are_of_threads() {
    all_of_threads! {
        AlmanacField AlmanacSet Answer BitNews BitSync Cell Choice ChoiceFault ClockField
        CodeBook Command Counts DataSets Doppler Eph2Field Eph3Field Event Field Format
        Found FrameSync Global HalfChip HealthField Message MessageNews NumberedSamples
        OpenFault PackedSamples Packing PackingFault Page Phase Plan PlanFault Prn PrnFault
        Receiver Recipe Refusal Report Reports Search SearchRoom Settings SettingsFault Signal
        SlotEvent SlotNo SlotState Subframe TooManySamples UtcField ValueKind
    }
}
