//! What a record's row is, how it is edited, and how an edit is taken back (docs/KINDS.md).

pub trait Kind {
    type Row: Copy + PartialEq;
    type Edit: Copy;
    type Change: Copy;

    const NAME: &'static str;

    fn blank() -> Self::Row;

    /// The change that alters nothing; it fills unused places of the version table.
    fn no_change() -> Self::Change;

    /// Edits the row in place and answers the change that takes the edit back.
    fn edit(row: &mut Self::Row, edit: &Self::Edit) -> Self::Change;

    fn undo(row: &mut Self::Row, change: &Self::Change);

    /// Undoes the change and says whether the row now tells something else.
    fn undo_tells(row: &mut Self::Row, change: &Self::Change) -> bool;

    /// One change for two: undoing it does what undoing the newer and then the older does.
    fn join(newer: &Self::Change, older: &Self::Change) -> Self::Change;

    /// Gives each number that the row tells to `take`, in order.
    fn tells(row: &Self::Row, take: impl FnMut(u64));
}
