//! Moves, told as such: a removal and a creation that share a tracker are one.
use crate::debouncer::DebouncedEvent;
use crate::event::{CreateKind, EventKind, ModifyKind, RemoveKind, RenameMode};
use std::collections::HashMap;
use std::path::Path;

/// The batch with each of its moves told. The two events of a file become one, at the place of the creation, unless
/// something else happened at the old path between them. What lies in a folder is told anew, so there the move stands
/// behind the removal, where it moves nothing.
pub(crate) fn join_moves(batch: Vec<DebouncedEvent>) -> Vec<DebouncedEvent> {
    let mut creations: HashMap<usize, Vec<usize>> = HashMap::new();
    for (place, event) in batch.iter().enumerate().filter(|(_, event)| event.kind.is_create()) {
        event.tracker().into_iter().for_each(|tracker| creations.entry(tracker).or_default().push(place));
    }
    let mut told: Vec<Vec<DebouncedEvent>> = batch.iter().map(|event| vec![event.clone()]).collect();
    for (from, removal) in batch.iter().enumerate() {
        let EventKind::Remove(kind) = removal.kind else {
            continue;
        };
        let places = removal.tracker().and_then(|tracker| creations.get(&tracker));
        let Some(to) = places.and_then(|places| target_of(kind, &batch, places)) else {
            continue;
        };
        let mut both = batch[to].clone();
        both.kind = EventKind::Modify(ModifyKind::Name(RenameMode::Both));
        both.paths = vec![removal.paths[0].clone(), batch[to].paths[0].clone()];
        let between = &batch[from.min(to) + 1..from.max(to)];
        if kind == RemoveKind::Folder {
            told[from].push(both);
        } else if !between.iter().any(|event| is_at_or_below(event, &removal.paths[0])) {
            told[from].clear();
            told[to] = vec![both];
        }
    }
    told.into_iter().flatten().collect()
}

/// The creation of what was removed. What lay in a folder that moved has its tracker too, wherever it is now.
fn target_of(kind: RemoveKind, batch: &[DebouncedEvent], places: &[usize]) -> Option<usize> {
    let wanted = EventKind::Create(match kind {
        RemoveKind::Any => CreateKind::Any,
        RemoveKind::File => CreateKind::File,
        RemoveKind::Folder => CreateKind::Folder,
        RemoveKind::Other => CreateKind::Other,
    });
    let places: Vec<usize> = places.iter().copied().filter(|place| batch[*place].kind == wanted).collect();
    let top = places.iter().copied().min_by_key(|place| batch[*place].paths[0].components().count())?;
    places.iter().all(|place| is_at_or_below(&batch[*place], &batch[top].paths[0])).then_some(top)
}

fn is_at_or_below(event: &DebouncedEvent, path: &Path) -> bool {
    event.paths.iter().any(|it| it.starts_with(path))
}
