"""What tests/beside draws of each message: what its arguments stand for, by the names that they have in docs/MESSAGES.md, and how often it is drawn.
tools/pages/wrappers.py writes the rows of tests/beside/messages.c by it."""

# What w or l stands for, by its name.
PLACES = {
    "position": "POSITION", "start": "POSITION", "end": "POSITION", "anchor": "POSITION", "caret": "POSITION", "length": "COUNT",
    "line": "LINE", "display_line": "LINE", "first": "LINE", "last": "LINE", "on": "FLAG", "number": "MARKER", "mask": "MASK", "handle": "HANDLE",
    "style": "STYLE", "value": "VALUE", "level": "LEVEL", "state": "STATE", "mode": "MODE", "action": "ACTION", "token": "TOKEN", "flags": "SEARCH",
    "options": "OPTIONS", "types": "TYPES", "document": "DOCUMENT", "bytes": "NOTHING",
}
# Messages of which a name stands for something else.
OTHERS = {
    "SETMODEVENTMASK": {"mask": "EVENTS"}, "ADDUNDOACTION": {"flags": "STEP"}, "SETINDICATORCURRENT": {"number": "INDICATOR"},
    "INDICATORVALUEAT": {"number": "INDICATOR"}, "INDICATORSTART": {"number": "INDICATOR"}, "INDICATOREND": {"number": "INDICATOR"},
}
# Questions that take how many bytes their buffer has room for.
BOUNDED = ("GETTEXT", "GETCURLINE")
# How often a message is drawn: a question of no arguments once, each other message four times, and these oftener or less often.
ONCE, USUALLY = 1, 4
WEIGHTS = {
    40: "INSERTTEXT",
    30: "ADDTEXT",
    25: "DELETERANGE",
    20: "UNDO SEARCHINTARGET SETFOLDLEVEL",
    15: "GOTOPOS SETSEL SETTARGETRANGE",
    12: "REDO REPLACESEL DELETEBACK INDICATORFILLRANGE",
    10: "SETSTYLING MARKERADD GETTEXTRANGE CLEAR REPLACETARGET APPENDTEXT",
    8: "GETSTYLEDTEXT GETLINE GETSELTEXT GETTEXT",
    6: "GETCHARAT GETCURLINE STARTSTYLING MARKERDELETE SETSTYLINGEX ENDUNDOACTION SETLINESTATE SETTARGETSTART SETTARGETEND FOLDLINE CHARLEFT CHARLEFTEXTEND "
       "CHARRIGHT CHARRIGHTEXTEND NEWLINE POSITIONBEFORE POSITIONAFTER INDICATORCLEARRANGE GETTARGETTEXT",
    5: "SETANCHOR MARKERNEXT MARKERPREVIOUS SETCURRENTPOS SETSELECTIONSTART SETSELECTIONEND LINEFROMPOSITION POSITIONFROMLINE PASTE GETLASTCHILD GETFOLDPARENT",
    3: "SETSAVEPOINT CONVERTEOLS GETLINESTATE GETFOLDLEVEL SHOWLINES GETLINEVISIBLE GETFOLDEXPANDED ENSUREVISIBLE TARGETFROMSELECTION HOME HOMEEXTEND LINEEND "
       "LINEENDEXTEND SETDOCPOINTER SETINDICATORCURRENT SETINDICATORVALUE",
    2: "GETLENGTH SETUNDOCOLLECTION SETEOLMODE MARKERDELETEALL SETREADONLY SETTEXT DOCUMENTSTART DOCUMENTSTARTEXTEND DOCUMENTEND DOCUMENTENDEXTEND "
       "GETDOCPOINTER STOPRECORD",
    1: "CLEARALL SELECTALL EMPTYUNDOBUFFER SETMODEVENTMASK CREATEDOCUMENT ADDREFDOCUMENT RELEASEDOCUMENT SETPASTECONVERTENDINGS SETLINEENDTYPESALLOWED "
       "STARTRECORD",
}
WEIGHT_OF = {name: weight for weight, names in WEIGHTS.items() for name in names.split()}


def places(message):
    """What w and l stand for in Scintilla's manner, where a pointer to a text stands in l."""
    stand = {**PLACES, **OTHERS.get(message.spelled, {})}
    w, l = (stand[message.place(place)] if message.place(place) else "NOTHING" for place in "wl")
    if message.takes_length:
        return "COUNT", "BYTES"
    if message.place("T"):
        return w, "CLOSED"
    if message.answers != "text":
        return w, l
    if message.place("l"):
        return "NOTHING", "RANGE"
    return "ROOM" if message.spelled in BOUNDED else w, "BUFFER"


def weight(message):
    """How often it is drawn."""
    is_bare = not message.changes and not message.arguments and message.answers != "text"
    return WEIGHT_OF.get(message.spelled, ONCE if is_bare else USUALLY)


def rows(found):
    """The rows of tests/beside/messages.c, by their numbers."""
    return "".join(f"    M({it.spelled}, {', '.join(places(it))}, {weight(it)}, {str(it.edits).lower()}),\n" for it in found)
