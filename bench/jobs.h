/* What a user of an editor waits for, by each of the three sides: the section Jobs of messages.c, and a part of it. */
#ifndef JOBS_H
#define JOBS_H

#include <limits.h>

#include "work.h"

enum { JOB_RUNS = BENCH_RUNS < 3 ? BENCH_RUNS : 3, MOST_PARTS = 8 };

static input log_50 = {50u * MEBIBYTE, make_log, NULL}, source_16 = {16u * MEBIBYTE, make_source, NULL}, lines_16 = {16u * MEBIBYTE, make_lines, NULL},
             source_4 = {4u * MEBIBYTE, make_source, NULL}, source_1 = {MEBIBYTE, make_source, NULL}, one_line_1 = {MEBIBYTE, make_one_line, NULL};

#include "edits.h"

#include "looks.h"

/* A part of a job, which is timed by itself: its unit, and what does it and answers how many of them were done. */
typedef struct part {
  const char *name, *unit;
  long (*run)(const side *s, input *of);
} part;

/* A job: what its parts are about, what is done before them, and the parts, each of which goes on where the one before it ended. Behind the last stands one
 * without a name. What `about` says ends the name of each. */
typedef struct job {
  const char *about;
  input *text;
  void (*prepare)(const side *s, input *of);
  const part *parts;
} job;

/* ---- Files and edits ---- */

static const part open_parts[] = {{"opened", "byte", open_at_once}, {"closed", "byte", close_it}, {NULL, NULL, NULL}};

static const part open_pieces_parts[] = {{"opened in pieces of 128 KiB", "byte", open_in_pieces}, {NULL, NULL, NULL}};

static const part save_parts[] = {{"saved in pieces of 128 KiB", "byte", save}, {"copied out at once", "byte", take_all}, {NULL, NULL, NULL}};

static const part set_parts[] = {
    {"opened, undo on", "byte", set_all}, {"SETTEXT over it, undo on", "byte", set_all}, {"UNDO of that SETTEXT", "byte", undo_change}, {NULL, NULL, NULL}};

static const part reload_parts[] = {{"SETTEXT over it, undo off", "byte", open_at_once}, {NULL, NULL, NULL}};

static const part apart_parts[] = {{"8 bytes in anywhere", "edit", insert_anywhere},
                                   {"8 bytes in at both ends in turn", "edit", insert_at_ends},
                                   {"UNDO of both", "step", undo_steps},
                                   {"a line in anywhere", "edit", insert_lines_anywhere},
                                   {"all borrowed, a byte typed in the midst", "turn", borrow_and_type},
                                   {NULL, NULL, NULL}};

static const part replace_parts[] = {
    {"all replaced", "match", replace_words}, {"UNDO of that", "match", undo_change}, {"REDO of that", "match", redo_change}, {NULL, NULL, NULL}};

static const part replace_word_parts[] = {{"whole words without case replaced", "match", replace_whole_words},
                                          {"UNDO of these words", "match", undo_change},
                                          {"REDO of these words", "match", redo_change},
                                          {NULL, NULL, NULL}};

static const part replace_byte_parts[] = {{"each e replaced by E", "match", replace_bytes},
                                          {"UNDO of these bytes", "match", undo_change},
                                          {"REDO of these bytes", "match", redo_change},
                                          {NULL, NULL, NULL}};

static const part indent_parts[] = {{"30,000 lines indented", "line", indent},
                                    {"UNDO of the indent", "line", undo_change},
                                    {"REDO of the indent", "line", redo_change},
                                    {"30,000 lines outdented", "line", outdent},
                                    {NULL, NULL, NULL}};

static const part indent_backwards_parts[] = {{"30,000 lines indented, the last first", "line", indent_backwards}, {NULL, NULL, NULL}};

static const part move_parts[] = {{"5,000 lines moved 30 lines on", "line", move_lines}, {NULL, NULL, NULL}};

static const part end_parts[] = {{"CONVERTEOLS to CRLF", "line", convert_to_crlf},
                                 {"UNDO of CONVERTEOLS", "line", undo_change},
                                 {"REDO of CONVERTEOLS", "line", redo_change},
                                 {"CONVERTEOLS back to LF", "line", convert_to_lf},
                                 {"CLEARALL", "line", clear_all},
                                 {"UNDO of CLEARALL", "line", undo_change},
                                 {"half of it deleted", "line", delete_half},
                                 {"UNDO of half of it", "line", undo_change},
                                 {NULL, NULL, NULL}};

static const part undo_parts[] = {{"1,000 steps at two places", "step", type_steps},
                                  {"UNDO of all steps", "step", undo_steps},
                                  {"REDO of all steps", "step", redo_steps},
                                  {"EMPTYUNDOBUFFER", "step", forget_history},
                                  {NULL, NULL, NULL}};

static const part group_parts[] = {{"1,000 bytes in one group", "byte", type_group},
                                   {"UNDO of the group", "byte", undo_change},
                                   {"REDO of the group", "byte", redo_change},
                                   {NULL, NULL, NULL}};

static const part action_parts[] = {
    {"container actions that coalesce", "action", add_joining_actions}, {"a byte typed after them", "byte", type_key}, {NULL, NULL, NULL}};

static const part search_parts[] = {{"no match, case", "byte", none_with_case},
                                    {"no match, no case", "byte", none},
                                    {"no match, no case, whole words", "byte", none_of_words},
                                    {"no match, case, backwards", "byte", none_backwards_with_case},
                                    {"no match, no case, backwards", "byte", none_backwards},
                                    {"no match, a rare first byte", "byte", none_of_rare_byte},
                                    {"no match, one byte", "byte", none_of_one_byte},
                                    {NULL, NULL, NULL}};

static const part find_parts[] = {{"each match found, case", "match", find_with_case},
                                  {"each match found, no case", "match", find},
                                  {"each match found, whole words", "match", find_words},
                                  {"each e found", "match", find_bytes},
                                  {NULL, NULL, NULL}};

static const part near_parts[] = {{"near matches, case", "byte", near_with_case},
                                  {"near matches, no case", "byte", near},
                                  {"near matches, the odd byte in the midst", "byte", near_in_midst},
                                  {"no whole word", "byte", near_word},
                                  {NULL, NULL, NULL}};

/* ---- Looks ---- */

static const part window_parts[] = {{"a window of 50 lines drawn", "window", draw_windows},
                                    {"of a window its lines and rows", "window", draw_rows},
                                    {"of a window GETSTYLEDTEXT", "window", draw_styles},
                                    {"of a window its indicators", "window", draw_indicators},
                                    {NULL, NULL, NULL}};

static const part highlight_parts[] = {{"highlighted by lines", "line", highlight_lines},
                                       {"GETLINE of each line", "byte", take_lines},
                                       {"GETSTYLEDTEXT of each line", "byte", take_styled_lines},
                                       {NULL, NULL, NULL}};

static const part token_parts[] = {
    {"SETSTYLING of each token", "token", highlight_tokens}, {"the same, where nothing changes", "token", highlight_tokens}, {NULL, NULL, NULL}};

static const part token_heard_parts[] = {{"SETSTYLING of each token", "token", highlight_tokens}, {NULL, NULL, NULL}};

static const part style_parts[] = {{"SETSTYLINGEX of 4 KiB", "byte", style_4_kib},
                                   {"SETSTYLINGEX of 64 KiB", "byte", style_64_kib},
                                   {"SETSTYLINGEX of the same 64 KiB", "byte", style_64_kib},
                                   {"SETSTYLINGEX of each line", "byte", style_each_line},
                                   {"SETFOLDLEVEL of each line", "line", level_each_line},
                                   {NULL, NULL, NULL}};

static const part key_parts[] = {{"a key, its line styled anew", "key", press_keys}, {NULL, NULL, NULL}};

static const part fold_parts[] = {{"all folded", "header", fold_all},
                                  {"VISIBLEFROMDOCLINE of each line, folded", "line", row_of_each_line},
                                  {"GETLINEVISIBLE of each line, folded", "line", visibility_of_each_line},
                                  {"50 DOCLINEFROMVISIBLE, folded", "window", lines_of_windows},
                                  {"all unfolded", "header", unfold_all},
                                  {"all folded, the last first", "header", fold_backwards},
                                  {NULL, NULL, NULL}};

static const part show_parts[] = {{"ENSUREVISIBLE anywhere, folded", "jump", jump},
                                  {"SHOWLINES of all", "line", show_lines},
                                  {"HIDELINES of all", "line", hide_lines},
                                  {"SHOWLINES of all, again", "line", show_lines},
                                  {"all folded as SciTE does", "header", fold_by_hiding},
                                  {NULL, NULL, NULL}};

static const part nest_parts[] = {{"folded, the innermost first", "header", fold_inner_first},
                                  {"ENSUREVISIBLE of the innermost line", "jump", jump_to_innermost},
                                  {"folded, the outermost first", "header", fold_outer_first},
                                  {"unfolded, the outermost first", "header", unfold_outer_first},
                                  {"GETFOLDPARENT of each line", "line", parent_of_each_line},
                                  {"GETLASTCHILD of each header", "header", last_child_of_each_header},
                                  {NULL, NULL, NULL}};

static const part marker_parts[] = {{"100,000 lines marked, in order", "marker", mark_in_order},
                                    {"MARKERNEXT from each to the next of all", "marker", next_of_each_mark},
                                    {"MARKERLINEFROMHANDLE anywhere", "marker", lines_of_handles},
                                    {"a newline at the top, marked", "newline", newlines_at_top},
                                    {"newlines at both ends in turn, marked", "newline", newlines_at_ends},
                                    {"MARKERDELETEALL of one of eight", "marker", unmark_one_kind},
                                    {"MARKERDELETEALL of all", "marker", unmark_all},
                                    {"100,000 lines marked, the last first", "marker", mark_backwards},
                                    {NULL, NULL, NULL}};

static const part disorder_parts[] = {
    {"100,000 lines marked, in disorder", "marker", mark_in_disorder}, {"MARKERDELETE, in disorder", "marker", unmark_in_disorder}, {NULL, NULL, NULL}};

static const part indicator_parts[] = {{"32 indicators of 10,000 runs filled", "run", fill_all_indicators},
                                       {"INDICATORALLONFOR anywhere, 32 in use", "place", indicators_anywhere},
                                       {"1,000 bytes typed, 32 indicators", "key", type_1000},
                                       {"8 bytes in anywhere, 32 indicators", "edit", insert_anywhere},
                                       {"8 bytes in at both ends, 32 indicators", "edit", insert_at_ends},
                                       {"all indicators cleared", "run", clear_all_indicators},
                                       {NULL, NULL, NULL}};

static const part type_1000_parts[] = {{"a byte typed", "key", type_1000}, {NULL, NULL, NULL}};

static const part type_40_parts[] = {{"a byte typed", "key", type_40}, {NULL, NULL, NULL}};

/* ---- The jobs ---- */

static const job jobs[] = {
    {": log of 50 MiB", &log_50, renew, open_parts},
    {": log of 50 MiB", &log_50, renew, open_pieces_parts},
    {": log of 50 MiB", &log_50, load_input, save_parts},
    {": log of 50 MiB", &log_50, renew, set_parts},
    {": log of 50 MiB", &log_50, load_at_once, reload_parts},
    {"", &log_50, load_to_draw, window_parts},
    {": source of 16 MiB", &source_16, load_input, highlight_parts},
    {"", &source_16, load_input, token_parts},
    {"", &source_16, load_to_style, style_parts},
    {"", &source_16, load_highlighted, key_parts},
    {"", &source_16, load_input, apart_parts},
    {", styled", &source_16, load_highlighted, apart_parts},
    {"", &source_16, load_input, search_parts},
    {"", &source_16, load_input, find_parts},
    {"", &source_16, load_input, marker_parts},
    {"", &source_16, load_input, disorder_parts},
    {"", &lines_16, load_at_once, end_parts},
    {"", &lines_16, load_input, indicator_parts},
    {"", &source_4, load_highlighted, replace_parts},
    {", unstyled", &source_4, load_input, replace_parts},
    {"", &source_4, load_highlighted, replace_word_parts},
    {"", &source_4, load_highlighted, replace_byte_parts},
    {", 32 indicators", &source_4, load_indicated_input, replace_parts},
    {"", &source_4, load_highlighted, indent_parts},
    {"", &source_4, load_highlighted, indent_backwards_parts},
    {"", &source_4, load_highlighted, move_parts},
    {"", &source_4, load_highlighted, fold_parts},
    {"", &source_4, load_folded, show_parts},
    {", nest of 100", &source_1, load_nest_100, nest_parts},
    {", nest of 1,000", &source_1, load_nest_1000, nest_parts},
    {"", &source_1, load_input, undo_parts},
    {"", &source_1, load_input, group_parts},
    {"", &source_1, load_typed_key, action_parts},
    {", 1 view", &source_1, load_input, type_1000_parts},
    {", 2 views", &source_1, load_2_views, type_1000_parts},
    {", 16 views", &source_1, load_16_views, type_1000_parts},
    {", 256 views", &source_1, load_256_views, type_40_parts},
    {", 1,000 views", &source_1, load_1000_views, type_40_parts},
    {"", &one_line_1, load_at_once, near_parts},
    {", the gap in the midst", &one_line_1, load_input, near_parts},
};

/* These again, in views that listen for all modifications and whose notifications are read. */
static const job notified_jobs[] = {
    {", notified", &source_16, load_heard, key_parts},
    {", notified", &source_16, load_input_heard, token_heard_parts},
    {", notified", &source_4, load_heard, replace_parts},
    {", 1 view notified", &source_1, load_1_notified, type_1000_parts},
    {", 2 views notified", &source_1, load_2_notified, type_1000_parts},
    {", 16 views notified", &source_1, load_16_notified, type_1000_parts},
    {", 256 views notified", &source_1, load_256_notified, type_40_parts},
    {", 1,000 views notified", &source_1, load_1000_notified, type_40_parts},
};

#endif
