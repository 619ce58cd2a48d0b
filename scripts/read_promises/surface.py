"""The calls of docs/PROMISES.md, part by part: the crate that defines each, and its name there."""

# the parts in the order of the page: each part's name, what stands below it, and its calls, a crate after the other
PARTS = (
    (
        "The theorems",
        "Each theorem is the contract of a function that does nothing: each clause states a conclusion with its premises. In short: if "
        "each merge succeeds, files that are merged in any grouping become the same bytes, and these have the rows of all inputs in order. "
        "For every order of the inputs the file statistics are the same. A file that was written reads back as its rows. `check` finds "
        "nothing in it, nor in a file that is merged of files in which it finds nothing. In such files reading may begin at each group of "
        "rows, and who skips rows by their statistics loses none that matches.",
        (
            ("orc_theorems", "merge_theorem written_files_read_back findings_of_merges reading_from_the_middle writers_positions"),
            ("orc_theorems", "skipping_in_files"),
            ("orc_skipping", "skipping_laws"),
        ),
    ),
    (
        "Safe and total",
        "This promise is about every public call of every crate. If its conditions hold, a call returns, whatever its arguments are, and "
        "does nothing undefined: no index is out of range, no number wraps, and no memory is used after it was given back. The toolchain "
        "proves this of every function before any clause, so it has no rows ([PROOF.md](PROOF.md#for-every-function) says what it "
        "presumes). Each refusal has a name, which [FAULTS.md](FAULTS.md) explains. What a refused call leaves as it was is said in the "
        "call's rows. In `orc_file_reader`, `orc_file_writer` and `orc_merger`, SourceFailed and WriteFailed come only if a count of failures rose during the call, "
        "that of the source or that of the output.",
        (),
    ),
    (
        "Each layer is its relation",
        "Each layer reads and writes exactly what its definition says. What is read is right, and everything that is right is read.",
        (
            ("orc_bits", "width_of code_of fixed_at_least Width::digits width_laws zigzag unzigzag read_varint put_varint varint_laws"),
            ("orc_bits", "unpack pack packed_laws"),
            ("orc_wire", "Fields::new Fields::next FieldWriter::new FieldWriter::put Message::read Message::is_message Message::put"),
            ("orc_rle", "Run::new Run::values RunCodec::next_run RunCodec::put_runs RunCodec::decode RunCodec::decode_all"),
            ("orc_rle", "RunU8::new RunU8::values ByteRuns::next_run ByteRuns::put_runs ByteRuns::decode"),
            ("orc_rle", "BitRuns::put_runs BitRuns::decode"),
            ("orc_types", "Schema::from_types Schema::types Schema::parse Schema::text fits cells row_from_json row_to_json"),
            ("orc_stats", "Tally::unit Tally::add Tally::join Tally::close tally_laws of_cells join_all Stat::read Stat::put"),
            ("orc_row_batch", "Options::new"),
            ("orc_stripe_writer", "write_stripe"),
            ("orc_stripe_reader", "StripeView::open StripeView::rows"),
        ),
    ),
    (
        "End to end",
        "Files are opened, read, written and merged exactly as the definitions of a file and of a merged file say.",
        (
            ("orc_io", "Source::len Source::read_at SliceSource::new SliceSource::len SliceSource::read_at FileSource::open"),
            ("orc_io", "Sink::write VecSink::new VecSink::into_vec VecSink::write StdSink::new StdSink::write"),
            ("orc_file_reader", "OrcFile::open OrcFile::open_capped OrcFile::schema OrcFile::tail OrcFile::into_parts"),
            ("orc_file_reader", "OrcFile::load OrcFile::view OrcFile::rows"),
            ("orc_file_writer", "Writer::new Writer::push Writer::written Writer::finish"),
            ("orc_tail", "Tail::put"),
            ("orc_merger", "merge"),
            ("orc_merge_laws", "grouping orders"),
            ("orc_cli_ints", "ints_to"),
            ("orc_cli_rows", "rows_to"),
            ("orc_cli_write", "write_from"),
            ("orc_cli_commands", "merge_to"),
            ("orc_cli_show", "show_to"),
            ("orc_c", "orcm_rows orcm_show orcm_merge orcm_write"),
        ),
    ),
    (
        "Indexed reading, the checker and the cursor",
        "Reading may begin at a position or at a group of rows, and gives what reading from the start gives from there on. The checker "
        "finds everything that is wrong in the statistics and row indexes that it compares, and nothing else.",
        (
            ("orc_rle", "RunCodec::seek ByteRuns::seek BitRuns::seek"),
            ("orc_stripe_reader", "StripeView::index StripeView::positions_right StripeView::cursor StripeView::cursor_at RowCursor::next"),
            ("orc_check", "check"),
            ("orc_cli_check", "check_to"),
            ("orc_c", "orcm_check"),
        ),
    ),
)

# the calls among them that have no clause, each with what stands in place of its rows
WITHOUT_CLAUSES = {
    "orc_wire::Fields::next": "It is the `next` of an iterator, whose promise is no clause but the ghost word `next_gives`: it gives the "
    "fields of the bytes in order, each with its place, and then perhaps one refusal, after which nothing more comes.",
    "orc_io::SliceSource::len": "What `Source::len` promises holds for it.",
    "orc_cli_commands::merge_to": "It is `merge` of `orc_merger` under another name.",
}


def surface():
    """Yields each part's name, its words, and its calls, as a crate and a name in it."""
    for title, words, calls in PARTS:
        yield title, words, [(crate, name) for crate, names in calls for name in names.split()]
