
// ---- Added for the comparison; everything above is the published source. ----

/// The first steps of [`plan`], in its order: its context and where its grid candidates go.
fn hook_context<'a>(
    analysis: &'a Analysis,
    segment: &SegmentConfig,
    config: &'a PlanConfig,
) -> (Context<'a>, Grid) {
    let max = analysis.samples_floor(config.max);
    let block_time = (config.max.saturating_sub(config.min) / 2)
        .max(config.max / 8)
        .min(Duration::from_secs(1));
    let block = analysis.frames_floor(block_time).max(1);
    let block_samples = analysis.position(block.min(analysis.frames()));
    let padding_cap = analysis.frames_floor(config.max).saturating_sub(2 * block);
    let grid = Grid {
        block,
        edge_limit: Some(max.saturating_sub(2 * block_samples)),
    };
    let context = Context::new(analysis, segment, &config.weights, padding_cap);
    (context, grid)
}

/// What [`plan`] has found when it comes to completion.
#[must_use]
pub fn hook_found(
    analysis: &Analysis,
    segment: &SegmentConfig,
    config: &PlanConfig,
) -> crate::candidates::Found {
    let (context, grid) = hook_context(analysis, segment, config);
    context.hook_found(config.gap, config.placement, &grid)
}

/// How many candidates [`plan`] has when it comes to completion, for their time alone: they are
/// made as it makes them, and nothing is copied.
#[must_use]
#[inline(never)]
pub fn hook_candidates(
    analysis: &Analysis,
    segment: &SegmentConfig,
    config: &PlanConfig,
) -> usize {
    let (context, grid) = hook_context(analysis, segment, config);
    let nodes = context.ends(config.gap).map(|(first, last)| {
        context.candidates(config.gap, config.placement, &grid, first, last)
    });
    core::hint::black_box(nodes).map_or(0, |nodes| nodes.len())
}

/// The candidates as completion leaves them, whether or not [`plan`] comes to it by count, and the
/// limit with which it goes on; none where there is no span.
#[must_use]
pub fn hook_completed(
    analysis: &Analysis,
    segment: &SegmentConfig,
    config: &PlanConfig,
) -> Option<(Vec<crate::candidates::Shown>, u64)> {
    let (context, grid) = hook_context(analysis, segment, config);
    let (first, last) = context.ends(config.gap)?;
    let mut nodes = context.candidates(config.gap, config.placement, &grid, first, last);
    let max = analysis.samples_floor(config.max);
    let limit = match config.count {
        Some(n) => context.complete_count(&mut nodes, max, n.get()),
        None => {
            context.complete_max(&mut nodes, max);
            max
        }
    };
    Some((nodes.into_iter().map(Into::into).collect(), limit))
}
