//! What is counted in the copy of predict.rs: texts of it, and the same with a count put in. `was`
//! counts a rule where it applied, and changes nothing else.
use super::Change;

pub const COUNTED: &[Change] = &[
    // The heights.
    (
        "            self.out[self.len] = value.clamp(",
        "            crate::was(crate::Rule::Clamped, !(-32_768.0..=32_767.0).contains(&value));
            self.out[self.len] = value.clamp(",
    ),
    // The start.
    (
        "    let Some(forward) = start.forward else {
",
        "    let Some(forward) = start.forward else {
        crate::was(crate::Rule::NoDirection, true);
",
    ),
    (
        "ready(cache, start.tile.key)?",
        "ready(cache, start.tile.key).inspect_err(|_| crate::was(crate::Rule::NeedStart, true))?",
    ),
    // The ends.
    (
        "        len: sampler.len,
",
        "        len: { crate::was(crate::Rule::of_end(end as u32), true); sampler.len },
",
    ),
    (
        "    }
    Ok(finish(&sampler, End::Uncertain, distance, confidence))
",
        "    }
    crate::was(crate::Rule::MaxEdges, true);
    Ok(finish(&sampler, End::Uncertain, distance, confidence))
",
    ),
    // An edge.
    (
        "        let tile = ready(cache, way.tile)?.ok_or(way.tile)?;
",
        "        let tile = ready(cache, way.tile).and_then(|tile| tile.ok_or(way.tile))
            .inspect_err(|_| crate::was(crate::Rule::NeedOwn, true))?;
",
    ),
    (
        "            pages += cache.pages(way.tile);
",
        "            pages += cache.pages(way.tile);
            crate::was(crate::Rule::OverBudget, pages > page_budget);
            crate::was(crate::Rule::NinetySeventh, !tiles.contains(&None));
",
    ),
    (
        "        visited_next = (visited_next + 1) % VISITED;
",
        "        visited_next = (visited_next + 1) % VISITED;
        crate::was(crate::Rule::VisitedWraps, visited_next == 0);
",
    ),
    (
        "                let (_, z_before) = sampler.last;
",
        "                crate::was(crate::Rule::HorizonInside, step > 0.0 && t > 0.0 && t < 1.0);
                crate::was(crate::Rule::HorizonStill, step == 0.0);
                crate::was(crate::Rule::HorizonBehind, horizon_m < distance);
                let (_, z_before) = sampler.last;
",
    ),
    (
        "                history.copy_within(1.., 0);
",
        "                crate::was(crate::Rule::HistoryFull, true);
                history.copy_within(1.., 0);
",
    ),
    (
        "            if sampler.len >= MAX_SAMPLES {
",
        "            if sampler.len >= MAX_SAMPLES {
                crate::was(crate::Rule::AllSamples, true);
",
    ),
    // The heading at a junction.
    (
        "                .map_or(points[0].0, |pair| {
",
        "                .map_or_else(|| { crate::was(crate::Rule::HeadingOldest, true); points[0].0 }, |pair| {
",
    ),
    (
        "                    let t = if d1 > d0 {
",
        "                    crate::was(crate::Rule::HeadingSpan, true);
                    crate::was(crate::Rule::HeadingStill, d1 <= d0);
                    let t = if d1 > d0 {
",
    ),
    (
        "            } else {
                approach
",
        "            } else {
                crate::was(crate::Rule::HeadingKept, true);
                approach
",
    ),
    (
        "            roundabout_entry.get_or_insert(approach);
",
        "            crate::was(crate::Rule::EntryTaken, roundabout_entry.is_none());
            crate::was(crate::Rule::EntryKept, roundabout_entry.is_some());
            roundabout_entry.get_or_insert(approach);
",
    ),
    // The ways on, and what each costs.
    (
        "                    if candidate.tile == way.tile && candidate.edge == way.edge {
",
        "                    if candidate.tile == way.tile && candidate.edge == way.edge {
                        crate::was(crate::Rule::OwnEdge, true);
",
    ),
    (
        "                    if next.has(flag::ONEWAY) && !candidate.forward {
",
        "                    if next.has(flag::ONEWAY) && !candidate.forward {
                        crate::was(crate::Rule::WrongWay, true);
",
    ),
    (
        "                    if visited.contains(&Some((candidate.tile, candidate.edge))) {
",
        "                    if visited.contains(&Some((candidate.tile, candidate.edge))) {
                        crate::was(crate::Rule::Visited, true);
",
    ),
    (
        "                        1.2
",
        "                        crate::was(crate::Rule::RoundOn, true);
                        1.2
",
    ),
    (
        "                        (libm::fabsf(geo::turn(reference, heading)) / 30.0).min(MAX_TURN_COST)
",
        "                        let turn = libm::fabsf(geo::turn(reference, heading)) / 30.0;
                        crate::was(crate::Rule::Turn, turn > 0.0);
                        crate::was(crate::Rule::TurnHeld, turn > MAX_TURN_COST);
                        crate::was(crate::Rule::Exit, roundabout_entry.is_some());
                        turn.min(MAX_TURN_COST)
",
    ),
    (
        "                        cost -= SAME_ROAD;
",
        "                        crate::was(crate::Rule::SameRoad, true);
                        cost -= SAME_ROAD;
",
    ),
    (
        "                        0.8 * step as f32
",
        "                        crate::was(crate::Rule::MoreMinor, true);
                        0.8 * step as f32
",
    ),
    (
        "                        0.2 * step as f32
",
        "                        crate::was(crate::Rule::MoreMajor, step < 0);
                        0.2 * step as f32
",
    ),
    (
        "                        cost += 1.5;
",
        "                        crate::was(crate::Rule::Link, true);
                        cost += 1.5;
",
    ),
    (
        "                        cost += 2.0;
",
        "                        crate::was(crate::Rule::Track, true);
                        cost += 2.0;
",
    ),
    (
        "                        cost += 1.0;
",
        "                        crate::was(crate::Rule::Cycleway, true);
                        cost += 1.0;
",
    ),
    (
        "                    if count < choices.len() {
",
        "                    crate::was(crate::Rule::ChoicesFull, count >= choices.len());
                    if count < choices.len() {
",
    ),
    // The tiles that share a point.
    (
        "                blocked_edge = true;
                continue;
",
        "                crate::was(crate::Rule::BlockedByGrid, true);
                blocked_edge = true;
                continue;
",
    ),
    (
        "                Lookup::Absent => return Err(Need::Tile(key)),
                Lookup::Missing => blocked_edge = true,
",
        "                Lookup::Absent => {
                    crate::was(crate::Rule::NeedTwin, true);
                    return Err(Need::Tile(key));
                }
                Lookup::Missing => {
                    crate::was(crate::Rule::BlockedByMissing, true);
                    blocked_edge = true;
                }
",
    ),
    (
        "                    if let Some(twin) = other.node_at(nx, ny) {
",
        "                    crate::was(crate::Rule::NoTwin, other.node_at(nx, ny).is_none());
                    if let Some(twin) = other.node_at(nx, ny) {
                        crate::was(crate::Rule::Twin, true);
",
    ),
    // The decision.
    (
        "        if second.is_finite() {
",
        "        crate::was(crate::Rule::BlockedAndOn, blocked_edge);
        crate::was(crate::Rule::OnlyWay, !second.is_finite());
        if second.is_finite() {
",
    ),
    (
        "            let margin = second - best.cost;
",
        "            let margin = second - best.cost;
            crate::was(crate::Rule::Close, margin < FORK_MARGIN);
            crate::was(crate::Rule::Equal, margin == 0.0);
            crate::was(crate::Rule::NearOne, margin > 0.99999 && margin < 1.00001);
            crate::was(crate::Rule::Clear, margin >= 4.0);
",
    ),
    (
        "            if confidence < MIN_CONFIDENCE {
",
        "            if confidence < MIN_CONFIDENCE {
                crate::was(crate::Rule::Unsure, true);
",
    ),
    (
        "        way = best.way;
",
        "        crate::was(crate::Rule::OtherTile, best.way.tile != way.tile);
        way = best.way;
",
    ),
    (
        "        if !next.has(flag::ROUNDABOUT) {
",
        "        crate::was(crate::Rule::RoadKept, next.has(flag::ROUNDABOUT));
        if !next.has(flag::ROUNDABOUT) {
",
    ),
    // The road ridden.
    (
        "    while distance < reach {
",
        "    crate::was(crate::Rule::NotRidden, distance >= reach);
    while distance < reach {
",
    ),
    (
        "            distance = reach;
",
        "            crate::was(crate::Rule::RiddenInside, true);
            distance = reach;
",
    ),
    (
        "            let Some(before) = index.checked_sub(1) else {
",
        "            let Some(before) = index.checked_sub(1) else {
                crate::was(crate::Rule::RiddenFromStart, true);
",
    ),
    (
        "        } else if index == last {
",
        "        } else if index == last {
            crate::was(crate::Rule::RiddenFromEnd, true);
",
    ),
    (
        "    let sampled = (sampler.len - 1) as f32 * SAMPLE_M;
",
        "    let sampled = (sampler.len - 1) as f32 * SAMPLE_M;
    crate::was(crate::Rule::AllBehind, sampler.len == BEHIND_SAMPLES);
",
    ),
    (
        "        sampler.out[sampler.len] = sampler.last.1 as i16;
",
        "        crate::was(crate::Rule::OneMore, true);
        crate::was(crate::Rule::OneMoreCut, i32::from(sampler.last.1 as i16) != sampler.last.1);
        sampler.out[sampler.len] = sampler.last.1 as i16;
",
    ),
];
