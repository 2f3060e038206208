"""What pytest gives the tests of the workbench."""
import os
import pathlib

import pytest

TOP = pathlib.Path(__file__).resolve().parent.parent


@pytest.fixture
def program():
    """The built program, or the one that SNP_PROGRAM names; tests that run it are left out where there is none."""
    path = os.environ.get('SNP_PROGRAM', str(TOP / 'crates/snp_cli/out/snp_cli'))
    if not os.access(path, os.X_OK):
        pytest.skip(f'there is no program {path}')
    return path
