//! Scintilla's names and numbers, as far as the profile has them.

// Written by tools/pages/wrappers.py: begin
// Messages.
// Each begins with Q if the message is a query, and with the names of w and l, or of w and the text. 0 is an argument without a meaning.
/// (length, text): Inserts `text` at the caret, and moves anchor and caret to the end of the inserted text.
pub const SCI_ADDTEXT: u32 = 2001;
/// (position, text): Inserts `text` at `position`, or at the caret if `position` is -1.
pub const SCI_INSERTTEXT: u32 = 2003;
/// Deletes the whole text.
pub const SCI_CLEARALL: u32 = 2004;
/// Q: Returns the length of the text.
pub const SCI_GETLENGTH: u32 = 2006;
/// Q (position): Returns the byte at `position`, 0 to 255, or 0 if there is none.
pub const SCI_GETCHARAT: u32 = 2007;
/// Q: Returns the position of the caret.
pub const SCI_GETCURRENTPOS: u32 = 2008;
/// Q: Returns the position of the anchor.
pub const SCI_GETANCHOR: u32 = 2009;
/// Q (position): Returns the style of the byte at `position`, or 0 if there is none.
pub const SCI_GETSTYLEAT: u32 = 2010;
/// Performs again the transaction that was undone last; does nothing while a group is open, or if there is no transaction to redo.
pub const SCI_REDO: u32 = 2011;
/// (on): Sets whether undo is collected.
pub const SCI_SETUNDOCOLLECTION: u32 = 2012;
/// Moves the anchor to 0 and the caret to the end of the text.
pub const SCI_SELECTALL: u32 = 2013;
/// Makes the current state the save point, and always sends SCN_SAVEPOINTREACHED.
pub const SCI_SETSAVEPOINT: u32 = 2014;
/// Q (start, end): Returns each byte from `start` to `end`, followed by its style; the value is the number of bytes returned.
pub const SCI_GETSTYLEDTEXT: u32 = 2015;
/// Q: Returns whether REDO would change something: no group is open, the document is not read-only, and there is a transaction to redo.
pub const SCI_CANREDO: u32 = 2016;
/// Q (handle): Returns the line of the marker with `handle`, or -1 if there is none.
pub const SCI_MARKERLINEFROMHANDLE: u32 = 2017;
/// (handle): Removes the marker with `handle`.
pub const SCI_MARKERDELETEHANDLE: u32 = 2018;
/// Q: Returns whether undo is collected.
pub const SCI_GETUNDOCOLLECTION: u32 = 2019;
/// (line): Moves anchor and caret to the start of line `line`; a negative number stands for the first line, one that is too great for the last.
pub const SCI_GOTOLINE: u32 = 2024;
/// (position): Moves anchor and caret to `position` (clamped to the text).
pub const SCI_GOTOPOS: u32 = 2025;
/// (position): Moves the anchor to `position` (clamped to the text); the caret stays.
pub const SCI_SETANCHOR: u32 = 2026;
/// Q: Returns the caret's line with its line end; the value is the caret's distance from the line's start, in bytes.
pub const SCI_GETCURLINE: u32 = 2027;
/// Q: Returns end styled: the position up to which the document is styled.
pub const SCI_GETENDSTYLED: u32 = 2028;
/// (mode): Turns each CRLF, CR and LF of the text into one line end: `SC_EOL_CRLF` 0, `SC_EOL_CR` 1 or `SC_EOL_LF` 2.
pub const SCI_CONVERTEOLS: u32 = 2029;
/// Q: Returns the document's line end: `SC_EOL_CRLF`, `SC_EOL_CR` or `SC_EOL_LF`.
pub const SCI_GETEOLMODE: u32 = 2030;
/// (mode): Sets the document's line end: `SC_EOL_CRLF` 0, `SC_EOL_CR` 1 or `SC_EOL_LF` 2.
pub const SCI_SETEOLMODE: u32 = 2031;
/// (position): Moves end styled to `position`.
pub const SCI_STARTSTYLING: u32 = 2032;
/// (length, style): Gives `style` to the `length` bytes from end styled on, and moves end styled after them.
pub const SCI_SETSTYLING: u32 = 2033;
/// (line, number): Adds a marker with `number` to line `line`, after those that it has, and returns its handle; -1 if there is no such line.
pub const SCI_MARKERADD: u32 = 2043;
/// (line, number): Removes from line `line`, if there is such a line, the first marker with `number`, or all markers if that is -1.
pub const SCI_MARKERDELETE: u32 = 2044;
/// (number): Removes all markers with `number` from the document, or all markers if that is -1.
pub const SCI_MARKERDELETEALL: u32 = 2045;
/// Q (line): Returns the mask of the markers of line `line`: bit k is set if it has one with number k; 0 if there is no such line.
pub const SCI_MARKERGET: u32 = 2046;
/// Q (line, mask): Returns the first line from `line` on that has a marker whose bit is set in the low 32 bits of `mask`, or -1.
pub const SCI_MARKERNEXT: u32 = 2047;
/// Q (line, mask): Returns the last line up to `line` that has a marker whose bit is set in the low 32 bits of `mask`, or -1.
pub const SCI_MARKERPREVIOUS: u32 = 2048;
/// (length, styles): Gives each byte from end styled on the style that `styles` has for it, and moves end styled after the last one.
pub const SCI_SETSTYLINGEX: u32 = 2073;
/// Opens an undo group, inside those that are open.
pub const SCI_BEGINUNDOACTION: u32 = 2078;
/// Closes the undo group that was opened last.
pub const SCI_ENDUNDOACTION: u32 = 2079;
/// (line, state): Sets the state of line `line`, if there is such a line.
pub const SCI_SETLINESTATE: u32 = 2092;
/// Q (line): Returns the state of line `line`, or 0 if there is no such line.
pub const SCI_GETLINESTATE: u32 = 2093;
/// Q (line): Returns where the line end of line `line` begins; the text's length for the last line and past it; -1 if `line` is negative.
pub const SCI_GETLINEENDPOSITION: u32 = 2136;
/// Q: Returns whether the document is read-only.
pub const SCI_GETREADONLY: u32 = 2140;
/// (position): Moves the caret to `position` (clamped to the text); the anchor stays.
pub const SCI_SETCURRENTPOS: u32 = 2141;
/// (position): Moves the anchor to `position` (clamped to the text); if the caret is before it, moves the caret there too.
pub const SCI_SETSELECTIONSTART: u32 = 2142;
/// Q: Returns the selection's start: the lesser of anchor and caret.
pub const SCI_GETSELECTIONSTART: u32 = 2143;
/// (position): Moves the caret to `position` (clamped to the text); if the anchor is after it, moves the anchor there too.
pub const SCI_SETSELECTIONEND: u32 = 2144;
/// Q: Returns the selection's end: the greater of anchor and caret.
pub const SCI_GETSELECTIONEND: u32 = 2145;
/// Q (line): Returns line `line` with its line end; the value is its length.
pub const SCI_GETLINE: u32 = 2153;
/// Q: Returns the number of lines, which is at least 1.
pub const SCI_GETLINECOUNT: u32 = 2154;
/// Q: Returns whether the document is modified, that is, not at its save point.
pub const SCI_GETMODIFY: u32 = 2159;
/// (anchor, caret): Moves the anchor to `anchor` and the caret to `caret` (both clamped to the text).
pub const SCI_SETSEL: u32 = 2160;
/// Q: Returns the selected text; the value is its length.
pub const SCI_GETSELTEXT: u32 = 2161;
/// Q (start, end): Returns the text from `start` to `end`; the value is its length.
pub const SCI_GETTEXTRANGE: u32 = 2162;
/// Q (position): Returns the line that contains `position` (clamped to the text).
pub const SCI_LINEFROMPOSITION: u32 = 2166;
/// Q (line): Returns the start of line `line`.
pub const SCI_POSITIONFROMLINE: u32 = 2167;
/// (0, text): Replaces the selection by `text`, and moves anchor and caret to the end of the inserted text.
pub const SCI_REPLACESEL: u32 = 2170;
/// (on): Makes the document read-only, or writable if `on` is false.
pub const SCI_SETREADONLY: u32 = 2171;
/// Q: Returns whether text can be pasted: whether the document is not read-only.
pub const SCI_CANPASTE: u32 = 2173;
/// Q: Returns whether UNDO would change something: no group is open, the document is not read-only, and there is a transaction to undo.
pub const SCI_CANUNDO: u32 = 2174;
/// Forgets the history, closes all groups, and makes the current state the save point.
pub const SCI_EMPTYUNDOBUFFER: u32 = 2175;
/// Takes back the last transaction; does nothing while a group is open, or if there is no transaction to undo.
pub const SCI_UNDO: u32 = 2176;
/// Copies the selection to the clipboard and deletes it.
pub const SCI_CUT: u32 = 2177;
/// Copies the selection to the clipboard.
pub const SCI_COPY: u32 = 2178;
/// Replaces the selection by the clipboard, and moves anchor and caret to the end of the inserted text.
pub const SCI_PASTE: u32 = 2179;
/// Deletes the selection, or, if that is empty, the bytes from the caret to the next character boundary.
pub const SCI_CLEAR: u32 = 2180;
/// (0, text): Replaces the whole text by `text`.
pub const SCI_SETTEXT: u32 = 2181;
/// Q: Returns the whole text; the value is its length.
pub const SCI_GETTEXT: u32 = 2182;
/// Q: Returns the length of the text.
pub const SCI_GETTEXTLENGTH: u32 = 2183;
/// (position): Sets the target's start to `position` (clamped to the text).
pub const SCI_SETTARGETSTART: u32 = 2190;
/// Q: Returns the target's start.
pub const SCI_GETTARGETSTART: u32 = 2191;
/// (position): Sets the target's end to `position` (clamped to the text).
pub const SCI_SETTARGETEND: u32 = 2192;
/// Q: Returns the target's end.
pub const SCI_GETTARGETEND: u32 = 2193;
/// (length, text): Replaces the text between the target's ends by `text`, makes the inserted text the target, and returns its length.
pub const SCI_REPLACETARGET: u32 = 2194;
/// (length, text): Searches the target for `text` by the view's search flags.
pub const SCI_SEARCHINTARGET: u32 = 2197;
/// (flags): Sets the view's search flags to `flags`: 0, or made of `SCFIND_WHOLEWORD` 0x2, `SCFIND_MATCHCASE` 0x4 and `SCFIND_WORDSTART` 0x100000.
pub const SCI_SETSEARCHFLAGS: u32 = 2198;
/// Q: Returns the view's search flags.
pub const SCI_GETSEARCHFLAGS: u32 = 2199;
/// Q (line): Returns the display line of line `line`; for a hidden line that of the last visible line before it; -1 if there is no such line.
pub const SCI_VISIBLEFROMDOCLINE: u32 = 2220;
/// Q (displayLine): Returns the line at display line `displayLine`; 0 if that is negative, and the number of lines if it is past the last.
pub const SCI_DOCLINEFROMVISIBLE: u32 = 2221;
/// (line, level): Sets the fold level of line `line`, if there is such a line.
pub const SCI_SETFOLDLEVEL: u32 = 2222;
/// Q (line): Returns the fold level of line `line`, or 1024 (`SC_FOLDLEVELBASE`) if there is no such line.
pub const SCI_GETFOLDLEVEL: u32 = 2223;
/// Q (line, level): Returns the last child of line `line`, or -1 if there is no such line.
pub const SCI_GETLASTCHILD: u32 = 2224;
/// Q (line): Returns the fold parent of line `line`: the nearest earlier header with a smaller level number; -1 if there is none, or no such line.
pub const SCI_GETFOLDPARENT: u32 = 2225;
/// (first, last): Makes the lines from `first` to `last` visible, as far as they exist.
pub const SCI_SHOWLINES: u32 = 2226;
/// (first, last): Hides the lines from `first` to `last`, as far as they exist, except line 0.
pub const SCI_HIDELINES: u32 = 2227;
/// Q (line): Returns whether line `line` is visible; false if there is no such line.
pub const SCI_GETLINEVISIBLE: u32 = 2228;
/// (line, on): Sets whether line `line` is expanded, if there is such a line; shows and hides nothing.
pub const SCI_SETFOLDEXPANDED: u32 = 2229;
/// Q (line): Returns whether line `line` is expanded; false if there is no such line.
pub const SCI_GETFOLDEXPANDED: u32 = 2230;
/// (line): Contracts line `line` if it is an expanded header, and expands it if it is a contracted one; if it is no header, does the same to its fold parent, if it has one.
pub const SCI_TOGGLEFOLD: u32 = 2231;
/// (line): Makes a hidden line `line` visible; before that, makes each of its fold parents visible, and expands those that are contracted, the outermost first.
pub const SCI_ENSUREVISIBLE: u32 = 2232;
/// Q: Returns whether all lines are visible.
pub const SCI_GETALLLINESVISIBLE: u32 = 2236;
/// (line, action): Contracts, expands or toggles line `line` if it is a header, else its fold parent, if it has one.
pub const SCI_FOLDLINE: u32 = 2237;
/// (length, text): Inserts `text` at the end of the document.
pub const SCI_APPENDTEXT: u32 = 2282;
/// Sets the target's start and end to those of the selection, the lesser first.
pub const SCI_TARGETFROMSELECTION: u32 = 2287;
/// Moves anchor and caret to the selection's start, or, if it is empty, to the character boundary before the caret.
pub const SCI_CHARLEFT: u32 = 2304;
/// Moves the caret to the character boundary before it; the anchor stays.
pub const SCI_CHARLEFTEXTEND: u32 = 2305;
/// Moves anchor and caret to the selection's end, or, if it is empty, to the character boundary after the caret.
pub const SCI_CHARRIGHT: u32 = 2306;
/// Moves the caret to the character boundary after it; the anchor stays.
pub const SCI_CHARRIGHTEXTEND: u32 = 2307;
/// Moves anchor and caret to the start of the caret's line.
pub const SCI_HOME: u32 = 2312;
/// Moves the caret to the start of its line; the anchor stays.
pub const SCI_HOMEEXTEND: u32 = 2313;
/// Moves anchor and caret to where the line end of the caret's line begins.
pub const SCI_LINEEND: u32 = 2314;
/// Moves the caret to where the line end of its line begins; the anchor stays.
pub const SCI_LINEENDEXTEND: u32 = 2315;
/// Moves anchor and caret to 0.
pub const SCI_DOCUMENTSTART: u32 = 2316;
/// Moves the caret to 0; the anchor stays.
pub const SCI_DOCUMENTSTARTEXTEND: u32 = 2317;
/// Moves anchor and caret to the end of the text.
pub const SCI_DOCUMENTEND: u32 = 2318;
/// Moves the caret to the end of the text; the anchor stays.
pub const SCI_DOCUMENTENDEXTEND: u32 = 2319;
/// Deletes the selection, or, if that is empty, the bytes from the character boundary before the caret to the caret.
pub const SCI_DELETEBACK: u32 = 2326;
/// Replaces the selection by the document's line end, and moves anchor and caret to the end of the inserted text.
pub const SCI_NEWLINE: u32 = 2329;
/// Q (line): Returns the length of line `line` with its line end, or 0 if there is no such line.
pub const SCI_LINELENGTH: u32 = 2350;
/// Q: Returns the id of the view's document.
pub const SCI_GETDOCPOINTER: u32 = 2357;
/// (0, document): Attaches the view to `document`, or to a new document if that is 0.
pub const SCI_SETDOCPOINTER: u32 = 2358;
/// (mask): Sets the view's mask: the kinds of SCN_MODIFIED that it is subscribed to, a bit for each.
pub const SCI_SETMODEVENTMASK: u32 = 2359;
/// (bytes, options): Creates a document, held once by the caller, and returns its id; `bytes` is not used.
pub const SCI_CREATEDOCUMENT: u32 = 2375;
/// (0, document): Adds a reference to `document` that the caller holds.
pub const SCI_ADDREFDOCUMENT: u32 = 2376;
/// (0, document): Gives back a reference to `document` that a caller holds.
pub const SCI_RELEASEDOCUMENT: u32 = 2377;
/// Q: Returns the view's mask: the kinds of SCN_MODIFIED that it is subscribed to.
pub const SCI_GETMODEVENTMASK: u32 = 2378;
/// Q: Returns the options of the view's document: 0, or made of `SC_DOCUMENTOPTION_STYLES_NONE` and `SC_DOCUMENTOPTION_TEXT_LARGE`.
pub const SCI_GETDOCUMENTOPTIONS: u32 = 2379;
/// Q (position): Returns the last character boundary before `position` (clamped to the text), or 0.
pub const SCI_POSITIONBEFORE: u32 = 2417;
/// Q (position): Returns the first character boundary after `position` (clamped to the text), or the text's length.
pub const SCI_POSITIONAFTER: u32 = 2418;
/// (start, end): Makes the text from `start` to `end` the clipboard, even if that is empty.
pub const SCI_COPYRANGE: u32 = 2419;
/// (length, text): Makes `text` the clipboard, even if it is empty.
pub const SCI_COPYTEXT: u32 = 2420;
/// (line, mask): Adds to line `line`, if there is such a line, a marker for each bit that is set in `mask`, in rising order.
pub const SCI_MARKERADDSET: u32 = 2466;
/// (on): Sets whether this view converts line ends in what it pastes.
pub const SCI_SETPASTECONVERTENDINGS: u32 = 2467;
/// Q: Returns whether this view converts line ends in what it pastes.
pub const SCI_GETPASTECONVERTENDINGS: u32 = 2468;
/// (number): Sets the view's current indicator.
pub const SCI_SETINDICATORCURRENT: u32 = 2500;
/// Q: Returns the view's current indicator.
pub const SCI_GETINDICATORCURRENT: u32 = 2501;
/// (value): Sets the value that this view's INDICATORFILLRANGE writes; 0 counts as 1.
pub const SCI_SETINDICATORVALUE: u32 = 2502;
/// Q: Returns the value that this view's INDICATORFILLRANGE writes.
pub const SCI_GETINDICATORVALUE: u32 = 2503;
/// (start, length): Gives the view's current indicator the view's value over the `length` bytes from `start` on.
pub const SCI_INDICATORFILLRANGE: u32 = 2504;
/// (start, length): Gives the view's current indicator the value 0 over the `length` bytes from `start` on.
pub const SCI_INDICATORCLEARRANGE: u32 = 2505;
/// Q (position): Returns a mask in which bit k is set if indicator k is not 0 at the byte at `position`; 0 if there is no such byte.
pub const SCI_INDICATORALLONFOR: u32 = 2506;
/// Q (number, position): Returns the value of indicator `number` at the byte at `position`, or 0 if there is no such byte.
pub const SCI_INDICATORVALUEAT: u32 = 2507;
/// Q (number, position): Returns the start of the longest run of one value of indicator `number` around the byte at `position`; 0 if there is no such byte.
pub const SCI_INDICATORSTART: u32 = 2508;
/// Q (number, position): Returns the end of the longest run of one value of indicator `number` around the byte at `position`: the place after its last byte; 0 if there is no such byte.
pub const SCI_INDICATOREND: u32 = 2509;
/// (position): Moves anchor and caret to `position` (clamped to the text).
pub const SCI_SETEMPTYSELECTION: u32 = 2556;
/// (token, flags): Appends a container action with `token` to the history, also on a read-only document.
pub const SCI_ADDUNDOACTION: u32 = 2560;
/// (start, length): Deletes the `length` bytes from `start` on.
pub const SCI_DELETERANGE: u32 = 2645;
/// Q: Returns whether the selection is empty.
pub const SCI_GETSELECTIONEMPTY: u32 = 2650;
/// (types): Sets which line ends the document allows, also if it is read-only: `SC_LINE_END_TYPE_DEFAULT` 0, or `SC_LINE_END_TYPE_UNICODE` 1 for those of Unicode too.
pub const SCI_SETLINEENDTYPESALLOWED: u32 = 2656;
/// Q: Returns which line ends the document allows: `SC_LINE_END_TYPE_DEFAULT` or `SC_LINE_END_TYPE_UNICODE`.
pub const SCI_GETLINEENDTYPESALLOWED: u32 = 2657;
/// Q: Returns which line ends divide the text: those that the document allows, `SC_LINE_END_TYPE_DEFAULT` or `SC_LINE_END_TYPE_UNICODE`.
pub const SCI_GETLINEENDTYPESACTIVE: u32 = 2658;
/// (start, end): Sets the target's start to `start` and its end to `end` (both clamped to the text).
pub const SCI_SETTARGETRANGE: u32 = 2686;
/// Q: Returns the text between the target's ends, whichever is the lesser; the value is its length.
pub const SCI_GETTARGETTEXT: u32 = 2687;
/// Sets the target's start to 0 and its end to the end of the text.
pub const SCI_TARGETWHOLEDOCUMENT: u32 = 2690;
/// Starts recording in this view: it is notified by SCN_MACRORECORD of each message marked R, before all else.
pub const SCI_STARTRECORD: u32 = 3001;
/// Stops recording in this view.
pub const SCI_STOPRECORD: u32 = 3002;
/// (start, end): Asks for styles up to `end`: if end styled is after `start`, moves it back to `start`; then sends the view SCN_STYLENEEDED with the position `end`, even for an empty range.
pub const SCI_COLOURISE: u32 = 4003;

// Notes.
/// Sent to the sending view.
pub const SCN_STYLENEEDED: u32 = 2000;
/// Sent to each view of the document.
pub const SCN_SAVEPOINTREACHED: u32 = 2002;
/// Sent to each view of the document.
pub const SCN_SAVEPOINTLEFT: u32 = 2003;
/// Sent to each view of the document, once a message.
pub const SCN_MODIFYATTEMPTRO: u32 = 2004;
/// Sent to each view of the document whose mask has a bit in common with the kind.
pub const SCN_MODIFIED: u32 = 2008;
/// Sent to the sending view, if it records and the message is marked R; before all other notifications.
pub const SCN_MACRORECORD: u32 = 2009;

// Constants.
pub const SCFIND_MATCHCASE: i64 = 4;
pub const SCFIND_WHOLEWORD: i64 = 2;
pub const SCFIND_WORDSTART: i64 = 0x100000;
pub const SC_DOCUMENTOPTION_STYLES_NONE: i64 = 1;
pub const SC_DOCUMENTOPTION_TEXT_LARGE: i64 = 0x100;
pub const SC_EOL_CR: i64 = 1;
pub const SC_EOL_CRLF: i64 = 0;
pub const SC_EOL_LF: i64 = 2;
pub const SC_FOLDACTION_CONTRACT: i64 = 0;
pub const SC_FOLDACTION_EXPAND: i64 = 1;
pub const SC_FOLDACTION_TOGGLE: i64 = 2;
pub const SC_FOLDLEVELBASE: i64 = 0x400;
pub const SC_FOLDLEVELHEADERFLAG: i64 = 0x2000;
pub const SC_FOLDLEVELNUMBERMASK: i64 = 4095;
pub const SC_FOLDLEVELWHITEFLAG: i64 = 4096;
pub const SC_LASTSTEPINUNDOREDO: i64 = 0x100;
pub const SC_LINE_END_TYPE_DEFAULT: i64 = 0;
pub const SC_LINE_END_TYPE_UNICODE: i64 = 1;
pub const SC_MODEVENTMASKALL: i64 = 0x7FFFFF;
/// A kind of SCN_MODIFIED: before bytes are deleted.
pub const SC_MOD_BEFOREDELETE: i64 = 2048;
/// A kind of SCN_MODIFIED: before bytes are inserted.
pub const SC_MOD_BEFOREINSERT: i64 = 0x400;
/// A kind of SCN_MODIFIED: a fold level changed.
pub const SC_MOD_CHANGEFOLD: i64 = 8;
/// A kind of SCN_MODIFIED: an indicator's values changed.
pub const SC_MOD_CHANGEINDICATOR: i64 = 0x4000;
/// A kind of SCN_MODIFIED: a line state changed.
pub const SC_MOD_CHANGELINESTATE: i64 = 0x8000;
/// A kind of SCN_MODIFIED: a line's markers changed.
pub const SC_MOD_CHANGEMARKER: i64 = 0x200;
/// A kind of SCN_MODIFIED: styles changed.
pub const SC_MOD_CHANGESTYLE: i64 = 4;
/// A kind of SCN_MODIFIED: a container action was undone or redone.
pub const SC_MOD_CONTAINER: i64 = 0x40000;
/// A kind of SCN_MODIFIED: bytes were deleted.
pub const SC_MOD_DELETETEXT: i64 = 2;
/// A kind of SCN_MODIFIED: bytes were inserted.
pub const SC_MOD_INSERTTEXT: i64 = 1;
pub const SC_MULTILINEUNDOREDO: i64 = 4096;
pub const SC_MULTISTEPUNDOREDO: i64 = 0x80;
pub const SC_PERFORMED_REDO: i64 = 0x40;
pub const SC_PERFORMED_UNDO: i64 = 0x20;
pub const SC_PERFORMED_USER: i64 = 0x10;
pub const SC_STARTACTION: i64 = 0x2000;
pub const UNDO_MAY_COALESCE: i64 = 1;
pub const UNDO_NONE: i64 = 0;
// Written by tools/pages/wrappers.py: end
