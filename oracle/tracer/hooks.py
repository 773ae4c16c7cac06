"""Puts the tracer's calls into a copy of FreeType 2.13.3's ttinterp.c. Each text that is looked for must be there once, or nothing is built."""

DECLARATIONS = '''#include "tterrors.h"
extern void trace_begin( TT_ExecContext exc );
extern void trace_before( TT_ExecContext exc, FT_Long* args );
extern void trace_after( TT_ExecContext exc );
extern void trace_end( TT_ExecContext exc, int error );
extern void trace_delta( TT_ExecContext exc, FT_UShort point, FT_Long by );
extern void trace_shift( TT_ExecContext exc, FT_UShort point, FT_Long dy );
'''

# what stands in ttinterp.c, and what is put in its place
HOOKS = [
    ('#include "tterrors.h"\n', DECLARATIONS),
    # before the first instruction
    ("    exc->iupy_called = FALSE;\n#endif\n\n    do\n", "    exc->iupy_called = FALSE;\n#endif\n    trace_begin( exc );\n\n    do\n"),
    # around each
    (
        "        FT_Byte   opcode = exc->opcode;\n\n\n        switch ( opcode )\n        {\n        case 0x00:  /* SVTCA y  */\n",
        "        FT_Byte   opcode = exc->opcode;\n\n\n        trace_before( exc, args );\n        switch ( opcode )\n        {\n        case 0x00:  /* SVTCA y  */\n",
    ),
    ("      exc->top = exc->new_top;\n\n      if ( exc->step_ins )\n", "      trace_after( exc );\n      exc->top = exc->new_top;\n\n      if ( exc->step_ins )\n"),
    # at either end
    ("  LNo_Error_:\n    FT_TRACE4", "  LNo_Error_:\n    trace_end( exc, 0 );\n    FT_TRACE4"),
    ("  LErrorLabel_:\n    if ( exc->error", "  LErrorLabel_:\n    trace_end( exc, exc->error );\n    if ( exc->error"),
    # where DELTAP moves a point
    (
        "              exc->func_move( exc, &exc->zp0, A, B );\n          }\n          else\n#endif\n            exc->func_move( exc, &exc->zp0, A, B );\n",
        "            {\n              trace_delta( exc, A, B );\n              exc->func_move( exc, &exc->zp0, A, B );\n            }\n          }\n          else\n#endif\n"
        "          {\n            trace_delta( exc, A, B );\n            exc->func_move( exc, &exc->zp0, A, B );\n          }\n",
    ),
    # where SHPIX does under backward compatibility
    (
        "          Move_Zp2_Point( exc, point, 0, dy, TRUE );\n",
        "        {\n          trace_shift( exc, point, dy );\n          Move_Zp2_Point( exc, point, 0, dy, TRUE );\n        }\n",
    ),
]


def hooked(text):
    """The text of ttinterp.c with the calls in it."""
    for wanted, put in HOOKS:
        if text.count(wanted) != 1:
            raise ValueError(f"ttinterp.c is not 2.13.3's: {text.count(wanted)} times {wanted.strip().splitlines()[0]!r}")
        text = text.replace(wanted, put)
    return text
