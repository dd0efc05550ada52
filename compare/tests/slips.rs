//! The comparison can fail: bent by any one slip, the model differs from the library, and unbent it does not.
use compare::model::slip::{Slip, SLIPS};
use compare::subjects::{Subject, SUBJECTS};

const SEED: u64 = 1;
const CASES: u64 = 400;

/// The subjects whose cases are short enough to make many of.
fn short_subjects() -> impl Iterator<Item = &'static Subject> {
    SUBJECTS.iter().filter(|subject| !["boundaries", "netpbm"].contains(&subject.name))
}

/// The subjects that differ from a model bent by this slip, or by none.
fn noticed_by(slip: Option<Slip>) -> Vec<&'static str> {
    let differs = |subject: &&Subject| subject.compare(slip, SEED, 0, CASES).1.is_err();
    short_subjects().filter(differs).map(|subject| subject.name).collect()
}

/// The subjects in which a slip must show.
fn due_in(slip: Slip) -> &'static [&'static str] {
    match slip {
        Slip::SkipsAShadeAtExactlyFourD | Slip::RoundsMeansDown | Slip::RecordsTheTotalAfterTheMove => {
            &["rounds", "run", "jancey", "fixed"]
        }
        Slip::ResetsAnEmptyShade | Slip::LeavesWeightsOutOfAGroupsMean => &["rounds", "run", "jancey", "fixed"],
        Slip::LeavesWeightsOutOfShadeZero => &["run", "jancey"],
        Slip::TakesALimitOfZeroAsTwenty | Slip::TakesALimitOfZeroAsNinetyNine => &["run", "jancey", "fixed"],
        Slip::ReadsShadeZeroWithoutHalvesUp => &["run", "jancey"],
        Slip::TakesAnyRedSum => &["add", "rounds", "run", "jancey", "fixed", "groups", "tables"],
        Slip::SwapsGreenAndBlueSums | Slip::LeavesWeightsOutOfTheSums => {
            &["add", "rounds", "run", "jancey", "fixed", "groups", "strips", "tables"]
        }
        Slip::SumsPixelsThatWereNotTaken | Slip::KeepsTheSumsOfTheRecordBefore => &["add", "strips", "tables"],
        Slip::TakesTheHighestNumberAtATie => &["rounds", "run", "jancey", "fixed", "map", "twins", "strips"],
        Slip::CutsPaletteBytes => &["fixed", "palette", "groups"],
        Slip::PutsTheOffsetOneTooFar => &["picture"],
        Slip::EndsACommentAtLfAlone | Slip::TakesACommentAfterTheDepth => &["picture"],
        Slip::TellsAnUnendedCommentAtItsHash | Slip::TakesAHashBeforeTheLetters => &["picture"],
        Slip::AsksForAWhiteByteBeforeAComment | Slip::SkipsTheByteAfterAComment => &["picture"],
        Slip::RoundsALevelTwice | Slip::CutsAMean | Slip::LeavesWeightsOutOfALevel => &["fixed", "groups"],
        Slip::TakesTheNearestColoursForAGroup | Slip::KeepsTheOldRuleForEveryShade => &["fixed", "groups"],
        Slip::AcceptsAMemberAtTheCount => &["groups"],
        Slip::LooksAtMembersPastTheUsedOnes => &["fixed", "groups"],
        Slip::TestsNoCentreOfAShadeWithAGroup | Slip::TestsTheRoomBeforeTheCentres => &["groups"],
        Slip::MapsByTwins | Slip::TestsNoTwinsWithAnEmptyStrip => &["map", "twins", "strips"],
        Slip::NamesTheHighestTwin | Slip::SwapsLowerAndHigher => &["map", "twins", "strips"],
        Slip::OverlooksTheLastEntry | Slip::ComparesNeighboursAlone => &["map", "twins", "strips"],
        Slip::ComparesRedAndGreenAlone => &["map", "twins", "strips"],
        Slip::TellsTwinsWithAnyRefusal => &["map", "twins"],
        Slip::NamesTheTwinWithTheSmallestLower | Slip::TestsTwinsAfterManyPixels => &["twins"],
        Slip::StepsFromTheRoundedMean | Slip::StepsTwiceTheWay | Slip::RoundsAStepDownAtAHalf => &["jancey"],
        Slip::HoldsNothingTo0 | Slip::HoldsNothingTo4080 => &["jancey"],
        Slip::ComparesBeforeHolding | Slip::ComparesWithTheRoundedMean => &["jancey"],
        Slip::KeepsAValueAsFar | Slip::TakesTheOldValueWhereAsFar | Slip::FallsBackByTheWholeShade => &["jancey"],
        Slip::LeapsAnEmptyShade | Slip::RunsByLloyd => &["jancey"],
        Slip::MovesAFixedShade | Slip::NumbersFixedShadesLast | Slip::PutsFixedShadesInWholeLevels => &["fixed"],
        Slip::BeginsOnTheMeanBesideFixedShades | Slip::OverlooksTheOtherFixedShades => &["fixed"],
        Slip::BeginsInTheFirstFreeShade | Slip::CountsAHeldShadeAsMoved => &["fixed"],
        Slip::CountsAnEqualFixedShadeTwice | Slip::CountsColoursThatAreFixed | Slip::CountsColoursByWeight => {
            &["fixed"]
        }
        Slip::AsksForAsManyColoursAsShades | Slip::TakesAnEmptyListAsNone => &["fixed"],
        Slip::TakesSixtyFourFixedShades | Slip::DropsFixedBytesPastTriples | Slip::RunsWithNoFreeShade => &["fixed"],
        Slip::TestsTheFixedListBeforeTheTable => &["fixed", "tables"],
        Slip::TestsTheCountBeforeTheFixedList | Slip::TestsTheColoursBeforeTheCount => &["fixed"],
        Slip::TestsTheLimitBeforeTheColours | Slip::TestsTheRoomBeforeTheLimit => &["fixed"],
        Slip::RoundsAFixedShadeToItsGroup | Slip::FixesAShadeMore => &["fixed", "groups"],
        Slip::MakesAPaletteWithNoFreeShade | Slip::CutsTheFixedNumberTo32Bits => &["groups"],
        Slip::TestsTheFixedNumberAfterTheCentres => &["groups"],
    }
}

#[test]
fn every_slip_is_noticed_where_it_must_show() {
    for slip in SLIPS {
        assert_eq!(noticed_by(Some(slip)), due_in(slip), "{slip:?}");
    }
}

#[test]
fn an_unbent_model_agrees() {
    assert_eq!(noticed_by(None), Vec::<&str>::new());
}
