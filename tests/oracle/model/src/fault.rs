//! Deliberate faults, one at a time, so that stored calls can be seen to notice each.

macro_rules! faults {
    ($($name:ident: $says:literal,)*) => {
        #[derive(Clone, Copy, Debug, PartialEq, Eq)]
        pub enum Fault {
            $($name,)*
        }

        impl Fault {
            pub const ALL: &[Fault] = &[$(Fault::$name,)*];

            /// What the analyser does wrong under this fault.
            pub fn says(self) -> &'static str {
                match self {
                    $(Fault::$name => $says,)*
                }
            }
        }
    };
}

faults! {
    // tables and the first walk
    TablesAfterWalk: "13 is judged after the first walk",
    TableLengthWraps: "16 times a limit is taken modulo 4294967296",
    NestingOneMore: "nesting 201 is accepted",
    NestingBeforeRange: "4 is judged before 3",
    ConstantItemsNested: "items of a constant array count for nesting",
    EmptyArrayNotConstant: "AR 0 is not constant",
    NamesBeforeCount: "the externals' names are asked for before their count is judged",
    ExtraBytesAllowed: "bytes after the expression are accepted",
    ImportKindJudged: "an import kind over 2 is refused",
    ExtendingObjectNoLevel: "the object of OX is no level of nesting",
    BoundFunctionNoLevel: "the function of BF is no level of nesting",
    // names and frames
    OldestBinding: "a name means the oldest live local",
    ThisFoundByName: "name 0 finds this",
    LaterDuplicateFound: "of two equal names in a frame the later is kept",
    SharedExternalsReported: "two externals of one name give error 2",
    HeadsInside: "field heads are read inside the object",
    SiblingCaptured: "a using frame does not look into the nearest defining frame beneath",
    SearchedBeneath: "recorded captures are searched in the frame beneath",
    CapturedTwice: "a recorded capture is not found again",
    InnermostFilledFirst: "captures are filled from the innermost frame outward",
    EightBeforeTwelve: "8 is judged before 12",
    SuperResolves: "super resolves and captures this",
    WrongThisSlot: "self and $ answer one slot more than this has",
    DollarNotRestored: "$ is not restored after the outermost object",
    DollarMarksInner: "$ in a nested object marks the inner object",
    NestedDollarFlag: "a nested object that uses $ gets the dollar-flag",
    SuperNotMarking: "super marks no object",
    SelfMarksOutermost: "self marks the outermost object",
    LocalZeroWritten: "LO 0 opens a frame and writes its record",
    ArrayWithoutFrame: "an array opens no frame",
    FrameForEachAssertion: "each assertion has a frame of its own",
    BodyAtSameDepth: "the body of LO and FN is not one deeper",
    FieldsAtSameDepth: "assertions and field values are not one deeper",
    BindValuesDeeper: "bind values are read at the depth of the body",
    DefaultsDeeper: "defaults are read at the depth of the body",
    // uses, references and settling
    EveryUseBySibling: "every use sets only used_by_sibling",
    SiblingUseIsReal: "use at the definition depth is use as any other",
    LastUseCounts: "a use replaces used_at_depth instead of lowering it",
    ReferencesForgotten: "references to siblings are not kept",
    NestedReferencesForgotten: "references out of a nested body are not kept",
    AnalysedReferencesKept: "references to analysed siblings are kept too",
    DroppedReferencesForgotten: "what a dropped bind kept is forgotten",
    DroppedDefaultsForgotten: "what a dropped parameter kept is forgotten",
    DroppedPassedBack: "what a dropped spec kept passes to the spec before",
    DroppedDependenceForgotten: "a dropped value does not taint what encloses it",
    AnalysedDependenceIgnored: "use of an analysed local does not take its dependence",
    SettledBackwards: "specs settle last first",
    UsesSettledAtOnce: "a round of uses sees only the round before",
    OneRound: "each settling loop runs once",
    DependencesUnsettled: "the first settling loop changes nothing",
    UsesUnsettled: "the second settling loop changes nothing",
    LastRoundUncounted: "the round that changes nothing is not counted",
    RoundTooMany: "every loop counts one round too many",
    EmptyFrameUnsettled: "a frame without names does not settle",
    RoundsOfDroppedForgotten: "rounds in a dropped spec do not count",
    SelfNoLocalDepth: "self, super and $ lower the object depth alone",
    GreatestDepthKept: "the greatest depth is not raised by tainting",
    // output
    DroppedOutputKept: "a dropped bind's or parameter's output is kept",
    DroppedCounted: "kept-count counts the dropped too",
    IdentityWithDefault: "a parameter with a default can make an identity function",
    IdentityOfAnyParameter: "identity does not ask for exactly one parameter",
    IdentityNotTakenBack: "an identity function's output is not taken back",
    IdentityUnfound: "no function is an identity function",
    StaticIgnoresComputed: "static-flag ignores computed heads",
    StaticIgnoresEqualNames: "static-flag ignores equal names",
    EqualNamesSideBySide: "equal names are found only side by side",
    ThisNotInShape: "an object's shape does not count this",
    ComputedNameKept: "a computed head keeps its name",
    BoundValueNamed: "a function under BV is named after the bind",
    ComputedMethodNamed: "a method with a computed name is named",
    BoundFunctionUnnamed: "a function under BF is unnamed",
    LabelsFirst: "NA and PT stand before their value",
    // diagnostics
    WarningsFirstToLast: "locals are judged first to last",
    HoistAtDepthZero: "warning 9 is given at depth 0 too",
    HoistAtDefinitionDepth: "warning 9 is given at the definition depth too",
    UnusedForSibling: "warning 7 stands for 8",
    IdentitySpanOfFunction: "warning 10 always bears the FN's span",
    WarningsAreErrors: "a warning counts as an error reported",
    DroppedDiagnosticsTakenBack: "a dropped value's diagnostics are taken back",
    // limits, moments and places
    ExternalsUncounted: "L does not count externals",
    ThisUncounted: "L does not count this",
    DuplicateTakesLocal: "a name defined twice takes a local",
    UsingFramesUncounted: "F does not count using frames",
    RootUncounted: "F does not count the root",
    RootBeforeExternals: "the root opens before externals are defined",
    ThisBeforeFrame: "this is defined before the object's frame opens",
    EachUseCounts: "R counts every reference, not each sibling once",
    ReferencesBeforeShape: "references count before the value's SH",
    ReferencesAfterRecord: "references count after the spec's own record",
    DroppedReferencesCount: "a dropped spec's references count at once",
    ClosedLocalsStay: "room of a closed frame's locals is not used again",
    ClosedFramesStay: "room of a closed frame is not used again",
    ClosedCapturesStay: "room of a closed frame's captures is not used again",
    ClosedReferencesStay: "room of a closed frame's references is not used again",
    TakenBackNeedNotFit: "a dropped spec's output need not fit",
    OutputBeforeDiagnostics: "in one record output comes before diagnostics",
    ShapeBeforeWarnings: "SH comes before warnings 7 to 9",
    IdentityBeforeShape: "warning 10 comes before SH",
    RecordPartlyFits: "a record fits when its mark does",
    BindFrameAtOwner: "a bind value's frame has the place of the LO or OB",
    DefaultFrameAtFunction: "a default's frame has the place of the FN",
    FieldFrameAtHead: "a field value's frame has the place of its head",
    AssertionsFrameAtObject: "the assertions' frame has the place of the OB",
    WarningsAtBind: "warnings 7 to 9 have the place of the first bind or parameter",
    DuplicateAtOwner: "defining has the place of the LO, FN or OB",
}
