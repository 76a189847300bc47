//! All names of the crate at once, and constants that fit the methods and the notifications.

use hongpilas::*;

#[test]
fn all_names_at_once() -> Result<(), Refusal> {
    let mut session: Session = hongpilas::Session::new()?;
    let id: ViewId = session.new_view()?;
    let mut view: ViewMut<'_> = session.view_mut(id);
    assert_eq!(view.send(SCI_GETLENGTH, 0, 0, b"")?, 0);
    let view: View<'_> = session.view(id);
    assert_eq!(view.ask(SCI_GETLENGTH, 0, 0)?, 0);
    assert_eq!(note_name(SCN_MODIFIED), Some("SCN_MODIFIED"));
    Ok(())
}

#[test]
fn constants_have_the_types_of_what_takes_them() -> Result<(), Refusal> {
    let mut session = Session::new()?;
    let id = session.new_view()?;
    let mut view = session.view_mut(id);
    view.set_mod_event_mask(SC_MOD_INSERTTEXT | SC_MOD_DELETETEXT)?;
    assert_eq!(view.get_mod_event_mask()?, SC_MOD_INSERTTEXT | SC_MOD_DELETETEXT);
    view.set_search_flags(SCFIND_MATCHCASE | SCFIND_WHOLEWORD)?;
    view.add_text("ab")?;
    let inserted = SC_MOD_INSERTTEXT | SC_PERFORMED_USER | SC_STARTACTION;
    assert!(view.notes().any(|note| note.code == SCN_MODIFIED && note.kind == inserted));
    view.set_mod_event_mask(SC_MODEVENTMASKALL)
}
