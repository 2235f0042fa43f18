// SPDX-License-Identifier: Apache-2.0 OR MIT
//! Deliberate misreadings, each under the sentence of the document it bends.

/// Makes the list of misreadings and their sentences.
macro_rules! misreadings {
    ($($sentence:literal: $($name:ident)*;)*) => {
        /// A misreading: one small change at one point of the rules.
        #[derive(Debug, Clone, Copy, PartialEq, Eq)]
        pub enum Misreading {
            $($(#[doc = $sentence] $name,)*)*
        }

        /// Every misreading, in the order of the document.
        pub const MISREADINGS: &[Misreading] = &[$($(Misreading::$name,)*)*];

        impl Misreading {
            pub const fn name(self) -> &'static str {
                match self {
                    $($(Misreading::$name => stringify!($name),)*)*
                }
            }

            /// The sentence of the document that is bent.
            pub const fn sentence(self) -> &'static str {
                match self {
                    $($(Misreading::$name => $sentence,)*)*
                }
            }
        }
    };
}

impl Misreading {
    /// False for the misreadings of questions 9 and 12, which no listing asks.
    pub const fn shows_in_listing(self) -> bool {
        !matches!(
            self,
            Misreading::EntryNumberFromOne
                | Misreading::MissingEntryPlaceOfLast
                | Misreading::CoversOfTwoBytes
                | Misreading::CoversMustFitExactly
                | Misreading::CoversMustBeLonger
                | Misreading::CoversAskedFirst
                | Misreading::ShortCoversPlaceOfEntry
        )
    }
}

misreadings! {
    // Questions
    "A field is a one-byte tag, a two-byte length (most significant byte first) and that many content bytes.":
        LengthLeastSignificantFirst;
    "Top level, any order: 01 state field, 02 genesis statement, 03 entry.":
        ItemsInTagOrder
        UnknownItemPassedOver;
    "01 state field (20, 21, then at most one expression, the default)":
        SeveralDefaultsAllowed;
    "02 genesis statement (one statement)":
        GenesisOfSeveralStatements;
    "03 entry (20, then parameters, then clauses, then body statements)":
        ClausesAmongStatements
        ParametersAmongClauses
        LimitsBeforeDenials;
    "04 parameter (20, 21).":
        TypeNameOptional;
    "11 let (20, expression); 12 emit (20, any count of expressions)":
        LetNameOptional
        EmitNeedsArgument;
    "3B call (callee, then arguments)":
        CallNeedsArgument;
    "Text bytes are 20 to 7E":
        ByteBeforeSpaceAllowed
        SpaceForbidden
        TildeForbidden
        DeleteAllowed
        HighBytesAllowed
        StringsUnchecked
        IntegersOfDigitsOnly;
    "tags 20, 21 and 33 are not empty, 30 to 32 may be.":
        EmptyNameAllowed
        EmptyTypeNameAllowed
        EmptyIdentifierAllowed
        EmptyIntegerForbidden
        EmptyDateForbidden
        EmptyStringForbidden;
    "34 caller, 35 native, 36 in-asset, 37 now, empty":
        FilledEmptyFieldAllowed;
    "An expression in a statement, clause or default has depth 1, each one inside it one more.":
        DepthFromZero
        DefaultDepthZero
        AssignmentDepthZero
        EmitArgumentsDepthTwo
        WrappersAddNoDepth;
    "At most 32,768 bytes? No: 1, place 0.":
        FileLimitOneLess
        FileLimitOneMore
        TooLongPlaceIsLimit
        LengthAskedLast;
    "Then each field, outer before inner, front to back":
        NeighboursBeforeParts
        TagAskedBeforeFit
        TextAskedBeforeDepth;
    "Do its head and content fit in what encloses it? No: 2.":
        FitAskedOfFileOnly
        FitPlaceOfOuter
        ContentCutToFit
        ShortRemainderPassedOver;
    "May its tag stand here? A tag may if some complete field has it next after the parts already read, so a parameter in the name's place is a no. No: 3.":
        ParametersBeforeName
        WrongTagIsMissingPart
        FurtherPartsPassedOver
        TagPlaceOfOuter;
    "If an expression, is its depth at most 32? No: 4.":
        DepthLimitOneLess
        DepthPlaceOfOuter;
    "Does a text or empty field's content obey the rules above? No: 5.":
        TextPlaceIsBadByte;
    "After its parts: was every needed part there? No: 6, place of the outer field.":
        MissingAskedBeforeParts
        MissingPlaceIsEnd;
    "Are state names different? No: 7, the first state field whose name an earlier one has.":
        StateNamesMayRepeat
        NeighbourNamesOnly
        LastRepeatedName
        RepeatedNamePlaceOfEarlier
        RepeatedNamePlaceOfName
        EntryNamesDiffer;
    "At most 64 entries? No: 8, the 65th.":
        EntryLimitOneLess
        EntryLimitOneMore
        EntryLimitPlaceOfLast
        AllItemsCountAsEntries
        EntriesCountedBeforeNames;
    "Then the entry asked about, counted from 0: Does it exist? No: 9, place 0.":
        EntryNumberFromOne
        MissingEntryPlaceOfLast;
    "At most 64 payouts? No: 10, the 65th payout's call.":
        PayoutLimitOneLess
        PayoutLimitOneMore
        PayoutLimitPlaceOfLast
        PayoutLimitPlaceOfEntry
        PayoutLimitPlaceOfStatement;
    "At most 64 backings? No: 11, the entry.":
        BackingLimitOneLess
        BackingLimitOneMore
        BackingLimitOfDebitsOnly
        BackingLimitOfParametersOnly
        BackingLimitPlaceOfBacking
        BackingsAskedBeforePayouts;
    "Have the lent covers at least 3 bytes a payout? No: 12, place 0.":
        CoversOfTwoBytes
        CoversMustFitExactly
        CoversMustBeLonger
        CoversAskedFirst
        ShortCoversPlaceOfEntry;
    "An empty file passes 1 to 8.":
        NoEntriesRefused;
    // Walking
    "`peel` walks down until it breaks with the first field that is neither Checked nor Wrapping.":
        OneWrapperPeeled
        CheckedNotPeeled
        WrappingNotPeeled
        NegatePeeled;
    "Of an entry only the body statements are walked; its clauses serve Conditions and nothing else, so a call there is no payout, debit or credit.":
        ClausesWalked
        LetNotWalked
        EmitNotWalked
        GuardNotWalked
        AssignmentsNotWalked;
    "A node comes before its parts, the callee before the arguments, a target before its value.":
        PartsBeforeNode
        ArgumentsBeforeCallee
        ValueBeforeTarget
        RightBeforeLeft;
    "An expression visits its list of parts and the list visits expressions.":
        CalleeNotWalked
        ArgumentsNotWalked
        TargetNotWalked
        MemberBaseNotWalked
        WrappersNotWalked
        NegationsNotWalked
        OperandsNotWalked;
    "Callees, member bases, the key `caller` and assignment targets are matched unpeeled":
        PayoutCalleePeeled
        DebitCalleePeeled
        FundingCalleePeeled
        SecondUseCalleePeeled
        SplitCalleePeeled
        DebitBasePeeled
        FundingBasePeeled
        AmountBasePeeled
        DebitKeyPeeled
        LoweringTargetPeeled
        RaiseTargetPeeled
        GenesisTargetPeeled;
    "extra arguments do not bar a match.":
        PayoutOfExactlyThree
        DebitOfExactlyTwo
        FundingOfExactlyTwo
        SplitOfExactlyOne;
    // Equality
    "Same shape, operators and texts, wrappers included.":
        EqualityPeels
        WrapperKindIgnored
        NegationKindIgnored
        OperatorsIgnored
        ArgumentCountIgnored
        MemberNamesIgnored
        SumsHaveNoOrder
        ProductsHaveNoOrder
        StringsEqualNothing
        IdentifiersInAnyCase
        IdentifierUnderscoresRemoved
        LongNamesCut
        ShorterNameDecides
        TextKindIgnored;
    "Integers compare as text with underscores removed.":
        IntegerUnderscoresKept
        OuterUnderscoresKept
        IntegersByValue;
    "Caller equals caller, now equals now.":
        CallerEqualsNothing
        NowEqualsNothing;
    "In-asset, native and date equal nothing, themselves included.":
        InAssetEqualsItself
        NativeEqualsItself
        DateEqualsItself;
    // Conditions
    "Limits as they are, denials negated, then guards of the body.":
        LimitsLeftOut
        DenialsLeftOut
        GuardsLeftOut
        DenialsAsTheyAre
        NotNegatesEverywhere;
    "Unpeeled, a denial `not e` gives e":
        DenialsPeeled
        DeniedNotGivesNothing
        DeniedNotIsNegatedAgain
        DeniedNotIsNotSplit;
    "Or gives both negations":
        DeniedOrGivesNothing
        DeniedOrGivesLeft
        DeniedOrNeedsBoth;
    "Eq/Ne, Lt/Ge, Gt/Le trade places; others give nothing.":
        DeniedEqualityNames
        DeniedInequalityNamesNothing
        DeniedAndGivesBoth;
    "And is split, unpeeled.":
        SplitPeels
        AndNotSplit
        AndSplitOnce
        OrSplitLikeAnd;
    // Bounds
    "True if the peeled amount equals the backing.":
        BoundsOneStepDeep
        WrappingBoundsNothing;
    "Else Checked goes inside with wrapping off, Wrapping with it on":
        CheckedLeavesWrappingOn
        WrappingOnAtFirst
        OperatorsTurnWrappingOff;
    "Sub goes left only with it off":
        SubtractionBoundsWrapping
        SubtractionBoundsNothing
        SubtractionBoundedByRight;
    "Div, Shr, Rem go left always":
        DivisionNeedsWrappingOff
        DivisionBoundsNothing
        ShiftBoundsNothing
        RemainderBoundsNothing
        RemainderBoundedByRight
        DivisionBoundedByRight;
    "others are false.":
        ProductBounded
        SumBounded;
    // Tokens
    "A condition part that is itself, unpeeled and after any flipping, Eq with in-asset on one peeled side and an identifier on the other peeled side names that token.":
        ConditionPartPeeled
        InequalityNames
        NamedSidesUnpeeled
        NamedInAssetLeftOnly;
    "`admitted_inflow_token`: the one token the entry names, nothing if two differ.":
        AdmittedIsFirstNamed
        AdmittedIsLastNamed
        AdmittedIsNamedOnce;
    "`ledger_funding_tokens`: all tokens named by entries":
        FundingInPayingEntryOnly
        FundingInOtherEntriesOnly
        FundingByAdmittedOnly
        FundingIsFirstNamed
        FundingIsNamedOnce;
    "that credit, set or insert into the map":
        FundingByCreditLeftOut
        FundingBySetLeftOut
        FundingByInsertLeftOut
        FundingOfAnyMap
        FundingOfDeclaredMapsOnly
        FundingOfCallerKeyOnly;
    "with a second argument, peeled, `p.amount`, p an asset parameter (type name Q_Asset).":
        FundingByFirstArgument
        FundingValueUnpeeled
        FundingByAnyValue
        FundingByAnyParameter
        FundingByOtherEntrysParameter
        FundingByContainedAmount
        AssetTypeByPrefix
        AssetTypeInAnyCase
        ParameterTypeByFirstOfName
        LocalsHideParameters;
    // Reserves
    "The amount must contain some asset parameter's `p.amount`.":
        AmountNeedNotContain
        AmountContainsAnyParameter
        AmountIsOperand;
    "A state field r covers if a guard, peeled, says r >, >= amount or amount <, <= r (sides peeled)":
        ReserveGuardUnpeeled
        ReserveGuardSplit
        ReserveLimitsCount
        ReserveDenialsCount
        StrictGuardLeftOut
        GuardMustBeStrict
        MirroredGuardLeftOut
        GuardMayBeEquation
        GuardFieldUnpeeled
        GuardAmountUnpeeled
        GuardOfLargerAmount
        ParametersHideStates
        ReserveAmountUnpeeled;
    "an assignment lowers it (`r -= amount`, or r set to r minus amount, value and sides peeled":
        LoweringNotNeeded
        LoweringInAnyEntry
        LoweringAfterGuardOnly
        LoweringBySetOnly
        LoweringBySubtractOnly
        LoweringValueUnpeeled
        LoweringSetUnpeeled
        LoweringFieldUnpeeled
        LoweringAmountUnpeeled
        LoweringMirrored;
    "no Wrapping anywhere in the value":
        WrappedSetLowers
        WrappedSubtractLowers
        WrappingBarsOutermostOnly
        CheckedBarsToo;
    "and `reserve_token` is the payout's known token.":
        ReserveOfAnyToken
        ReservePaysUnknownToken
        ReserveWithoutTokenPays;
    "The first such guard counts.":
        LastGuardFirst
        OnlyFirstGuardTried
        ReservesInStateOrder;
    "the default, if there is one, and the value of every genesis assignment to the field (set, add or subtract)":
        DefaultNeeded
        DefaultNotAsked
        GenesisSetLeftOut
        GenesisAddLeftOut
        GenesisSubtractLeftOut;
    "are, peeled, an integer of 0 and _ only (an empty text passes).":
        DefaultUnpeeled
        GenesisValueUnpeeled
        AnyIntegerIsZero
        UnderscoreIsNotZero
        EmptyIsNotZero
        ZeroNeedsDigit
        ZeroMayBeString;
    "In the entries `r += v` and r set to r plus v raise by v":
        RaisesWherePaidLeftOut
        RaiseByAddLeftOut
        SetPlusRaisesByWhole
        SetPlusInEitherOrder;
    "any subtraction from r is no raise":
        SubtractionRaises
        SetMinusRaisesByWhole
        SetMinusInEitherOrder;
    "and any other set raises by its whole value, all peeled.":
        OtherSetsRaiseNothing
        RaiseUnpeeled
        RaisingSetUnpeeled
        RaisedFieldUnpeeled
        SetRaiseUnpeeled;
    "A raise by `p.amount`, p an asset parameter of that entry, must not also be the peeled second argument of a member call credit, set or insert (any base) in that entry.":
        RaiseByAnyParameter
        SecondUseAllowed
        SecondUseInAnyEntry
        SecondUseOfNamedMapOnly
        SecondUseOfCallerKeyOnly
        SecondUseByCreditOnly
        SecondUseUnpeeled
        SecondUseOfAnyAsset
        SecondUseInside;
    "It needs exactly one body guard there that is as a whole, peeled, Eq of in-asset and an identifier (sides peeled), which is its token":
        InflowByAdmitted
        EqualInflowGuardsCountOnce
        FirstInflowGuardCounts
        InflowGuardSplit
        InflowLimitsCount
        InflowGuardUnpeeled
        InflowSidesUnpeeled
        InflowInAssetLeftOnly;
    "it is never looked for among the debits.":
        RaiseByAssetAmongDebits;
    "Any other raise must equal the amount, peeled, of a caller debit in that entry":
        RaiseDebitUnpeeled
        RaiseBoundedByDebit;
    "and the first such must be from a map with exactly one funding token.":
        RaiseByAnyFundedDebit
        RaiseByLastDebit
        RaiseByUnfundedDebitAdmitted;
    "All tokens agree and there is one; else the field has none.":
        RaiseTokensMayDiffer
        RaiseWithoutTokenPassedOver
        NoRaiseHoldsAnyToken;
    // Matching
    "Payouts: the body's `send_asset` calls with a third argument, in walk order.":
        PayoutByMember
        PayoutOfTwoArguments
        PayoutToCallerOnly;
    "Backings: caller debits `m.debit(caller, amount)` in walk order, then `p.amount` of asset parameters.":
        DebitOfAnyKey
        DebitOfAnyBase
        EqualDebitsCountOnce
        SameNameParametersCountOnce
        ParametersBeforeDebits;
    "Token of a debit: its map's single funding token; of a parameter: the admitted one; else unknown.":
        DebitTokenUnknown
        DebitTokenAdmitted
        ParameterTokenUnknown;
    "A payout's token is its first argument, peeled, if an identifier.":
        PayoutTokenUnpeeled
        PayoutOfInAssetIsAdmitted
        PayoutTokenMayBeString;
    "Its amount is the third argument, or if that, peeled, calls a member `split`, that call's first argument (none: reject).":
        SplitUnpeeled
        SplitBySecondArgument
        SplitWithoutAmountIsWhole
        SplitOfNamedOnly
        SplitByPlainCall
        SplitInsideSplit;
    "In order, amount and backings peeled: the first free backing equal to it":
        EqualAmountUnpeeled
        BackingUnpeeled
        EqualMayBeTaken
        LastEqualFirst
        BoundingLikeEqual;
    "rejecting if both tokens are known and differ":
        ConflictAtEqualPassed
        ConflictAtEqualGoesOn
        NextEqualAfterConflict
        UnknownPayoutConflicts
        UnknownBackingConflicts
        BothUnknownConflict
        TokensInAnyCase;
    "else reject if a taken backing equals it":
        TakenMayEqual
        TakenMayEqualIfBounding
        TakenDebitMayEqual
        TakenMayNotBound;
    "else the first free backing that bounds the unpeeled amount":
        BoundedAmountPeeled
        BoundingBackingUnpeeled
        BoundingMayBeTaken
        BoundingTakesNothing
        LastBoundingFirst
        DebitsBoundNothing
        ParametersBoundNothing
        ReserveBeforeBounding;
    "same token rule":
        ConflictAtBoundingPassed
        ConflictAtBoundingGoesOn
        NextBoundingAfterConflict;
    "else the first covering reserve, rejecting if there is none or it is used.":
        NextReserveAfterUsed
        ReserveUsedAgain
        ReserveUsedPerAmount;
    // Verdict and listing
    "a cover is one of five kinds: 1 equal debit, 2 equal parameter, 3 bounding debit, 4 bounding parameter, 5 reserve.":
        BoundingDebitIsKindOne
        BoundingParameterIsKindTwo;
    "two-byte index among debits, asset parameters or state fields":
        ParameterIndexAmongAll
        ParameterIndexAmongBackings
        ReserveIndexAmongUsed;
    "Rejected gives the failing payout's number.":
        LastFailingPayout
        OnlyFirstPayoutExamined;
    "Else each entry prints":
        RejectedEntryEndsListing
        RefusedEntryEndsListing
        RefusedEntriesNotNumbered;
    "Spare is backings minus payouts, or 0 if that is negative.":
        SpareNegativeIsPositive
        SpareOfDebitsOnly
        SpareOfUncovered
        SpareOfAllBackings;
}
