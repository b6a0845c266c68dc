"""How BenchExec runs 'qrp_cmd check'. In a benchmark definition the tool is qrptools.benchexec_check; tools/ has to be on PYTHONPATH.

A task has two input files, the formula and the trace, in this order: its task-definition file lists both. docs/MANY.md shows one.
"""

from typing import Any

import benchexec.result as result  # type: ignore
import benchexec.tools.template  # type: ignore

from qrptools.command import version

ANSWERS = {"VERIFIED true": result.RESULT_TRUE_PROP, "VERIFIED false": result.RESULT_FALSE_PROP}
REFUSED = (1, 2)  # statuses of the program


class Tool(benchexec.tools.template.BaseTool2):
    def name(self) -> str:
        return "qrp_cmd"

    def version(self, executable: str) -> str:
        return version() or ""

    def executable(self, tool_locator: Any) -> Any:
        return tool_locator.find_executable("qrp_cmd", subdir="bin")

    def cmdline(self, executable: str, options: list[str], task: Any, rlimits: Any) -> list[str]:
        return [executable, "check", *options, *task.input_files]

    def determine_result(self, run: Any) -> Any:
        """The verdict by the program's line and its status. A refused proof says nothing of the formula."""
        line = run.output[0].strip() if run.output else ""
        status = run.exit_code.value
        if status == 0:
            return ANSWERS.get(line, result.RESULT_ERROR)
        return result.RESULT_UNKNOWN if status in REFUSED and line.startswith("REFUSED ") else result.RESULT_ERROR
