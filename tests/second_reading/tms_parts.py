"""The parts of the second reading that are about the processor: the assembler, its listing, object text, the loader and
the run of a program, by the Editor/Assembler manual and the TMS 9900 data manual."""
import tms_assembly_cases
import tms_copy_cases
import tms_link_cases
import tms_run_cases
from case import Part

PARTS = {
    'asm': Part(tms_assembly_cases.asm, 'lines'),
    'copied': Part(tms_copy_cases.copied, 'lines'),
    'dis': Part(tms_assembly_cases.dis, 'lines'),
    'link': Part(tms_link_cases.link, 'groups'),
    'exec': Part(tms_run_cases.executed, 'instructions'),
}
