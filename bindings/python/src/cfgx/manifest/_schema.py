"""The schema of the JSON that `cfgx-deps` prints."""
import pkgutil

# The file, which stands beside the modules.
NAME = "schema.json"


def text() -> str:
    """Returns the schema, as JSON Schema of the draft 2020-12 has it."""
    data = pkgutil.get_data(__package__, NAME)
    if data is None:
        raise OSError(f"the package {__package__} lacks its file {NAME}")
    return data.decode()
