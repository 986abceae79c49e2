"""How long the proof of each crate takes from nothing, in seconds of one processor.

They are those of a gate of four jobs, with other work beside it (28 November 2026).
"""

SECONDS = {
    "simdram_cli": 414, "op_lang": 306, "mig_rewrite": 210, "row_alloc": 204, "sim_machine": 180, "uprog_gen": 150,
    "scan_query": 138, "tmr_guard": 126, "word_flow": 150, "uprog_bin": 114, "op_text": 114, "host_edge": 108,
    "bbop_isa": 108, "cmd_trace": 96, "block_lower": 90, "object_alloc": 90, "aoi_graph": 90, "word_lower": 84,
    "object_steps": 78, "uprog_ctl": 66, "dram_chip": 66, "op_print": 66, "mig_graph": 66,
    "simdram": 60, "guard_job": 60, "uprog_code": 60, "transpose_unit": 54, "prog_text": 54, "dram_model": 48,
    "loop_ir": 48, "file_fields": 36, "text_lex": 36, "soak_job": 104, "bit_rows": 24, "scan_model": 24,
    "trace_job": 18, "op_rules": 18, "machine_model": 18, "guard_model": 18, "trace_model": 12, "cli_model": 12,
    "faults": 14, "file_laws": 14, "safety_laws": 16, "loop_laws": 12, "wave_model": 12,
}
# of a crate that the table does not have
OTHER = 60
