//! What is shown and counted in the copy of engine.rs: texts of it, and the same with public fields
//! or with a count put in. `took` counts a path where it was taken, and changes nothing else.
use super::Change;

pub const COUNTED: &[Change] = &[
    (super::LON_SCALE, super::LON_SCALE_OF_PORT),
    // The state.
    ("enum Pack {", "pub enum Pack {"),
    (
        "    horizon_m: f32,
    ahead: Ahead,
",
        "    horizon_m: f32,
    pub ahead: Ahead,
",
    ),
    (
        "    cache: Cache<'a>,
    pack: Pack,
    failures: u8,
    matcher: Matcher,
    fix: Option<Fix>,
    match_due: bool,
    predict_due: bool,
    last_predict_ms: Option<u64>,
    need: Option<TileKey>,
    /// Tiles requested by the current match or prediction attempt.
    reloads: u16,
    history: [Point; HISTORY],
    history_len: usize,
    heading: Option<(f32, u64)>,
",
        "    pub cache: Cache<'a>,
    pub pack: Pack,
    pub failures: u8,
    pub matcher: Matcher,
    pub fix: Option<Fix>,
    pub match_due: bool,
    pub predict_due: bool,
    pub last_predict_ms: Option<u64>,
    pub need: Option<TileKey>,
    /// Tiles requested by the current match or prediction attempt.
    pub reloads: u16,
    history: [Point; HISTORY],
    pub history_len: usize,
    pub heading: Option<(f32, u64)>,
",
    ),
    // Reset, fixes and their loss.
    (
        "        self.match_due = self.fix.is_some();
",
        "        self.match_due = self.fix.is_some();
        crate::took(crate::Path::ResetWithFix, self.match_due);
        crate::took(crate::Path::ResetWithout, !self.match_due);
",
    ),
    (
        "            .is_some_and(|f| f.lat == fix.lat && f.lon == fix.lon)
        {
",
        "            .is_some_and(|f| f.lat == fix.lat && f.lon == fix.lon)
        {
            crate::took(crate::Path::SamePlace, true);
",
    ),
    (
        "            self.heading = Some((geo::bearing(east, north), fix.at_ms));
",
        "            crate::took(crate::Path::HeadingSet, true);
            self.heading = Some((geo::bearing(east, north), fix.at_ms));
",
    ),
    (
        "            self.history.copy_within(1.., 0);
",
        "            crate::took(crate::Path::HistoryFull, true);
            self.history.copy_within(1.., 0);
",
    ),
    (
        "> HEADING_MAX_AGE_MS)
        {
",
        "> HEADING_MAX_AGE_MS)
        {
            crate::took(crate::Path::HeadingAged, true);
",
    ),
    (
        "        self.matcher.reset();
        if self.ahead.matched.is_some() {
",
        "        self.matcher.reset();
        crate::took(crate::Path::LostPublished, self.ahead.matched.is_some());
        crate::took(crate::Path::LostNothing, self.ahead.matched.is_none());
        if self.ahead.matched.is_some() {
",
    ),
    // The step as a whole.
    (
        "    pub fn step(&mut self, source: &mut impl Source) -> Status {
",
        "    pub fn step(&mut self, source: &mut impl Source) -> Status {
        let status = self.stepped(source);
        crate::took(crate::Path::of_status(status as u32), true);
        status
    }

    fn stepped(&mut self, source: &mut impl Source) -> Status {
",
    ),
    // The header.
    (
        "                        self.pack = Pack::Ready(header);
",
        "                        crate::took(crate::Path::HeaderRead, true);
                        self.pack = Pack::Ready(header);
",
    ),
    (
        "                        self.failures += 1;
",
        "                        crate::took(crate::Path::HeaderMissed, true);
                        self.failures += 1;
",
    ),
    (
        "                    Err(_) => {
                        self.pack = Pack::Failed;
                        Status::NoPack
",
        "                    Err(error) => {
                        crate::took(crate::Path::HeaderEighth, error == Error::Media);
                        crate::took(crate::Path::HeaderPast, error == Error::Range);
                        crate::took(crate::Path::HeaderRule, error == Error::Unsupported);
                        crate::took(crate::Path::HeaderSum, error == Error::Corrupt);
                        self.pack = Pack::Failed;
                        Status::NoPack
",
    ),
    // A load.
    (
        "                    self.need = None;
                    self.failures = 0;
                }
                Ok(false) => {}
                Err(_) => {
",
        "                    crate::took(crate::Path::LoadDone, true);
                    self.need = None;
                    self.failures = 0;
                }
                Ok(false) => crate::took(crate::Path::LoadMore, true),
                Err(error) => {
                    crate::took(crate::Path::LoadMissed, error == Error::Media);
                    crate::took(crate::Path::LoadPast, error == Error::Range);
                    crate::took(crate::Path::BadEntry, error == Error::Corrupt);
",
    ),
    (
        "                        self.pack = Pack::Failed;
                        return Status::NoPack;
",
        "                        crate::took(crate::Path::LoadEighth, true);
                        self.pack = Pack::Failed;
                        return Status::NoPack;
",
    ),
    (
        "        self.steps = self.steps.wrapping_add(1);
",
        "        self.steps = self.steps.wrapping_add(1);
        crate::took(crate::Path::StepsWrap, self.steps == 0);
",
    ),
    // Where the fix lies.
    (
        "            return Status::Idle;
        };
        let point = Point {
",
        "            crate::took(crate::Path::NoFix, true);
            return Status::Idle;
        };
        let point = Point {
",
    ),
    (
        "            if self.ahead.matched.is_some() {
                self.matcher.reset();
",
        "            crate::took(crate::Path::OffMapPublished, self.ahead.matched.is_some());
            crate::took(crate::Path::OffMapNothing, self.ahead.matched.is_none());
            if self.ahead.matched.is_some() {
                self.matcher.reset();
",
    ),
    // A match.
    (
        "                Err(key) => {
                    if self.reload(key) {
",
        "                Err(key) => {
                    crate::took(crate::Path::MatchNeeds, true);
                    if self.reload(key) {
",
    ),
    (
        "                    // The tiles around the fix do not fit together.
",
        "                    crate::took(crate::Path::MatchLimit, true);
",
    ),
    (
        "                    if matched.is_none() {
",
        "                    let (none, out) = (matched.is_none(), self.ahead.matched.is_some());
                    crate::took(crate::Path::NonePublished, none && out);
                    crate::took(crate::Path::NoneNothing, none && !out);
                    crate::took(crate::Path::FirstRoad, !none && self.last_predict_ms.is_none());
                    crate::took(crate::Path::ChangedEdge, !none && changed && out && !due);
                    crate::took(crate::Path::TimeDue, !none && !changed && due);
                    crate::took(crate::Path::NotDue, !none && !changed && !due);
                    if matched.is_none() {
",
    ),
    // A road.
    (
        "                self.predict_due = false;
                return Status::Idle;
",
        "                crate::took(crate::Path::RoadNoMatch, true);
                self.predict_due = false;
                return Status::Idle;
",
    ),
    (
        "                Err(Need::Match) => {
",
        "                Err(Need::Match) => {
                    crate::took(crate::Path::Rematch, true);
",
    ),
    (
        "                Err(Need::Tile(key)) => {
",
        "                Err(Need::Tile(key)) => {
                    crate::took(crate::Path::RoadNeeds, true);
",
    ),
    (
        "                    // The road ahead's tiles evict each other.
",
        "                    crate::took(crate::Path::RoadLimit, true);
",
    ),
    (
        "                    self.ahead.samples = samples;
",
        "                    crate::took(crate::Path::Road, true);
                    self.ahead.samples = samples;
",
    ),
    (
        "        Status::Idle
    }

    /// Ask for `key`,",
        "        crate::took(crate::Path::NothingDue, true);
        Status::Idle
    }

    /// Ask for `key`,",
    ),
    // What is published.
    (
        "        self.ahead.generation = self.ahead.generation.wrapping_add(1);
",
        "        self.ahead.generation = self.ahead.generation.wrapping_add(1);
        crate::took(crate::Path::GenerationWraps, self.ahead.generation == 0);
",
    ),
    (
        "        self.ahead.end = end;
",
        "        crate::took(crate::Path::of_end(end as u32), true);
        self.ahead.end = end;
",
    ),
];
