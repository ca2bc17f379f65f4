"""The application for another server, as gunicorn or mod_wsgi: `symarch_server.wsgi:app`. The environment variable
SYMARCH_SERVER has the words that symarch-server would be called with."""
import os
import shlex

from .app import make_app
from .settings import settings_of

app = make_app(settings_of(shlex.split(os.environ.get("SYMARCH_SERVER", ""))))
