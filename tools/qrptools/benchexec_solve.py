"""How BenchExec runs tools/solve. In a benchmark definition the tool is qrptools.benchexec_solve; tools/ has to be on PYTHONPATH."""

from typing import Any

import benchexec.result as result  # type: ignore
import benchexec.tools.template  # type: ignore

from qrptools.command import version

ANSWERS = {"s cnf 1 ": result.RESULT_TRUE_PROP, "s cnf 0 ": result.RESULT_FALSE_PROP, "s cnf -1 ": result.RESULT_UNKNOWN}
STATUSES = {result.RESULT_TRUE_PROP: 10, result.RESULT_FALSE_PROP: 20}


class Tool(benchexec.tools.template.BaseTool2):
    def name(self) -> str:
        return "DepQBF with qrp_cmd"

    def version(self, executable: str) -> str:
        return version() or ""

    def executable(self, tool_locator: Any) -> Any:
        """tools/solve of the sources and of a release, or qrp-solve if it is installed."""
        try:
            return tool_locator.find_executable("solve", subdir="tools")
        except Exception:  # which class it is goes by the version of BenchExec
            return tool_locator.find_executable("qrp-solve", subdir="bin")

    def cmdline(self, executable: str, options: list[str], task: Any, rlimits: Any) -> list[str]:
        return [executable, *options, task.single_input_file]

    def determine_result(self, run: Any) -> Any:
        """What was verified, by the tool's first line."""
        first = run.output[0] if run.output else ""
        verified = next((found for line, found in ANSWERS.items() if first.startswith(line)), result.RESULT_ERROR)
        return verified if run.exit_code.value == STATUSES.get(verified, run.exit_code.value) else result.RESULT_ERROR
