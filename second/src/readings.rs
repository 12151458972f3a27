// Wrong readings of the documents, each switched on by its name: they show that a comparison would see them.

/// Which wrong reading is on, if any. The settled program is compiled with `Settled`, so that its questions cost nothing.
pub trait Readings: Copy {
    fn wrong(self, which: Wrong) -> bool;

    /// Whether no wrong reading is on.
    fn settled(self) -> bool;
}

#[derive(Clone, Copy)]
pub struct Settled;

impl Readings for Settled {
    #[inline(always)]
    fn wrong(self, _: Wrong) -> bool {
        false
    }

    #[inline(always)]
    fn settled(self) -> bool {
        true
    }
}

/// One wrong reading is on.
#[derive(Clone, Copy)]
pub struct Only(pub Wrong);

impl Readings for Only {
    fn wrong(self, which: Wrong) -> bool {
        self.0 == which
    }

    fn settled(self) -> bool {
        false
    }
}

macro_rules! wrong_readings {
    ($($variant:ident $name:literal $says:literal,)*) => {
        #[derive(Clone, Copy, PartialEq, Eq, Debug)]
        pub enum Wrong { $($variant,)* }

        /// Every wrong reading with its name and what it says.
        pub const ALL: &[(Wrong, &str, &str)] = &[$((Wrong::$variant, $name, $says),)*];
    };
}

wrong_readings! {
    // The package text.
    SmallLetters "small-letters" "a to f are digits, too",
    CarriageReturn "carriage-return" "a CR may stand before the LF",
    EmptyLine "empty-line" "an empty line keeps the digit rule",
    LastLineFeed "last-line-feed" "the last line may lack its LF",
    LimitReached "limit-reached" "a text of exactly 32,768 bytes is too long",
    EmptyText "empty-text-2" "the empty text breaks the digit rule",
    NineAtLastLine "9-at-last-line" "9 is given at the last line, not behind it",
    FourBeforeThree "4-before-3" "the generation is judged before the rest of line 1",
    AfterEnd "after-end-5-before-2" "a line after 07 is 5 even if it breaks the digit rule",
    SixBeforeEight "6-before-8" "the length is judged before the number of frames",
    SevenBeforeEight "7-before-8" "the numbers are judged before the number of frames",
    CountBeforeLength "7-before-6-for-k" "a k over its limit is 7 whatever the length",
    RepeatedPairs "repeated-pairs-free" "8 does not count a pair that was there",
    RepeatedEffects "repeated-effects-merge" "an effect that was there gets no number",
    StaticSlot "static-slot-free" "a static method may have any slot",
    InstanceSlot "instance-slot-zero" "an instance method may have slot 0000",
    StaticByte "static-byte-any" "every static byte but 00 means static",
    OpMasked "op-masked" "only the low three bits of an op count",
    SupertypeItself "supertype-itself" "a class may name itself as its supertype",
    TargetKind "target-kind-free" "an effect may name a field or method of either static kind",
    // Trust and rules.
    PairStrongerFirst "pair-stronger-first" "a pair names the dominating domain first",
    NoRoot "no-root" "0 is not below every domain",
    NoClosure "no-closure" "listed pairs are not closed transitively",
    SameClass "same-class" "the same domain means the same class",
    GrantToCaller "grant-to-caller" "30 judges a parameter against the caller instead of the receiver",
    OnlyCalledJudged "only-called-judged" "only the called method is judged: 23 to 25 are never asked",
    SuspicionApart "22-only-distinct" "22 is not asked of one class under two suspicious ones",
    RelatedSlots "11-related-only" "11 looks only at classes of which one is under the other",
    TwelveFirst "12-before-11" "12 is judged before 11",
    DirectWidening "21-direct-only" "21 looks at direct supertypes only",
    NearestOverridden "nearest-overridden-only" "23 to 25 look at the nearest overridden methods only",
    SecondPlaceFirst "second-place-first" "places rise by the second one first",
    OverriddenNamedFirst "overridden-named-first" "23 to 25 name n before n'",
    SuspicionNamed "22-names-suspicious" "22 names the suspicious classes instead of those under them",
    ResultAgainstOverrider "24-against-overrider" "24 judges the return type against B'",
    ParameterAgainstOverridden "25-against-overridden" "25 judges the parameters against B",
    OverrideTurned "23-turned" "23 asks n to trust n'",
    CastFree "cast-free" "26 asks nothing of casts",
    WriteAgainstWriter "write-against-writer" "27 judges a written type against A",
    ReadAgainstOwner "read-against-owner" "27 judges a read type against B",
    InstanceCallMediated "28-instance-too" "28 is asked of instance calls, too",
    AmplificationTurned "29-turned" "29 asks m to trust n",
    GrantJoined "30-joined" "30 joins the parameters and names no single one",
    GrantWithoutReceiver "30-receiver-unasked" "30's third way does not ask B to trust m",
    GrantWithoutType "30-type-unasked" "30's third way does not ask C to trust m",
    ParameterFromOne "30-parameter-from-1" "30 counts parameters from 1",
    EffectsInOrder "effects-in-order" "of 26 to 30 the one that the first effect breaks is named",
    Without10 "without-10" "10 is never asked",
    Without11 "without-11" "11 is never asked",
    Without12 "without-12" "12 is never asked",
    Without21 "without-21" "21 is never asked",
    Without22 "without-22" "22 is never asked",
    Without23 "without-23" "23 is never asked",
    Without24 "without-24" "24 is never asked",
    Without25 "without-25" "25 is never asked",
    Without26 "without-26" "26 is never asked",
    Without27 "without-27" "27 is never asked",
    Without28 "without-28" "28 is never asked",
    Without29 "without-29" "29 is never asked",
    Without30 "without-30" "30 is never asked",
    // The run text.
    EmptyRun "empty-run-53" "an empty run text is 53",
    LongFirstLine "long-first-line" "line 1 of a run may be longer than two bytes",
    FirstLineLikeOthers "line-1-like-others" "line 1 of a run is judged by 55 to 57",
    StaticEntry "static-entry" "the entry method must be static",
    SecondEntry "second-entry" "a second line 10 names another entry method",
    StartAnyOrder "start-any-order" "start lines may come in any order",
    StartAfterStep "start-after-step" "start lines may follow a step",
    AfterRunEnd "after-2F-ignored" "lines after 2F are not judged",
    SixBeforeEightRun "56-before-58" "the length is judged before the number of lines",
    RepeatedLinks "repeated-links-free" "58 does not count a link line that was there",
    RepeatedLabels "repeated-labels-free" "58 does not count a label line that was there",
    LinksAndLinksApart "58-by-kind" "58 counts the lines 12 and 13 apart",
    ObjectTwice "object-twice" "the same line 11 may come twice",
    LinkKindFree "link-kind-free" "lines 12 and 13 fit fields of either static kind",
    LinkFree "link-free" "a link needs no declared field",
    StartReferenceFree "start-reference-free" "a start reference needs no line 11 before it",
    UnknownReference "unknown-reference-57" "a step's reference that no line named before is 57",
    KnownNew "known-new-57" "21 on a number that a line 11 named is 57",
    UnrelatedDispatch "unrelated-dispatch-57" "a v that neither is n nor overrides it is 57",
    SixtyBefore57 "60-before-57" "60 is judged before a link's field is looked for",
    ProperStart "proper-start" "a start label must be a proper supertype",
    OwnerUnasked "owner-unasked" "60 does not ask a link's declaring class of its owner's",
    TargetUnasked "target-unasked" "60 does not ask a link's type of its target's",
    StepsWhileRead "steps-while-read" "a refused step hides what is wrong behind it",
    // The machine.
    RunsCalled "runs-called" "the called n runs, not v",
    EffectNamesRunning "effect-names-v" "the effect of a call must name v",
    ReceiverExact "receiver-exact" "r0 must be held at exactly n's class",
    ReceiverAnyLabel "receiver-any-label" "r0 may be held at any label",
    ReceiverByRunning "receiver-by-v" "r0 must be held at a subtype of v's class",
    ReceiverOwnClass "receiver-own-class" "r0's own class is not asked to be under v's",
    MostSpecific "most-specific" "v must be the most special one for r0's class",
    ReceiverLabelledCalled "receiver-labelled-n" "the callee holds r0 labelled with n's class",
    ArgumentsWiden "arguments-widen" "arguments may be held at a subtype",
    ArgumentsOwnClass "arguments-own-class" "the callee holds the arguments labelled with their own classes",
    WritesWiden "writes-widen" "a written value may be held at a subtype",
    ReturnsWiden "returns-widen" "a returned value may be held at a subtype",
    ReadsWiden "reads-widen" "a link of a subtype serves a read",
    OwnerExact "owner-exact" "p must be held at exactly the declaring class",
    CastByLabel "cast-by-label" "a cast asks a label under bb instead of the own class",
    CastUnheld "cast-unheld" "a cast does not ask r in the frame",
    WidenOwnClass "widen-own-class" "widening asks the own class instead of a label",
    FieldExact "effect-names-field" "a field step needs an effect on that very field",
    ReturnNothing "return-nothing-any" "29 FF fits every method",
    ReturnDropped "return-dropped" "29 rr fits a method without return type",
    ReturnsFirst "62-before-64" "a missing premise of a return is judged before 64",
    PremiseBeforeEffect "62-before-61" "other premises are judged before the effect",
    RoomBeforePremise "63-before-62" "room is judged before other premises",
    OneTarget "one-target" "a field has one target",
    FifteenSaved "15-saved-frames" "the running frame counts among the 16",
    ThirtyOneLabels "31-labels" "a frame has room for 31 labels",
    LinksShort "255-links" "there is room for 255 links",
    FullRefusesKnown "full-refuses-known" "a full set has no room for an item that is there",
    BagOfLabels "bag-of-labels" "start labels that come twice take room twice",
    BagOfLinks "bag-of-links" "links that come twice take room twice",
    LinesGoOn "lines-go-on" "lines are counted on from the package",
    RefusedCounted "refused-step-counted" "the refused step is counted as taken",
    RefusedChanges "refused-step-changes" "a refused new puts its object into the frame all the same",
    // Holdings and programs.
    HoldingsRunning "holdings-running-only" "saved frames hold nothing",
    HoldingsByLabel "holdings-by-label" "a frame lies in its method's label instead of its class's domain",
    HoldingsByOwner "holdings-by-owner" "a link lies in the domain of its owner's class",
    HoldingsByTarget "holdings-by-target" "a link lies in the domain of its type",
    HoldingsTwice "holdings-twice" "a holding that comes from two places is written twice",
    HoldingsUnsorted "holdings-unsorted" "holdings are written as they are found",
    HoldingsOfSuccess "holdings-of-success" "holdings are written for 0 only",
    CutAnywhere "cut-anywhere" "run cuts its input after any line that ends in 07",
    CutByKind "cut-by-kind" "run cuts its input after the first line of kind 07",
    InputLimit "input-65536-refused" "an input of exactly 65,536 bytes is too long",
    LongInput "long-input-51" "an input over 65,536 bytes answers 51",
    SmallOutput "small-output" "answers are printed with small letters",
}

pub fn by_name(name: &str) -> Option<Wrong> {
    ALL.iter().find(|entry| entry.1 == name).map(|entry| entry.0)
}
