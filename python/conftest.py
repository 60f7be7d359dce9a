# SPDX-License-Identifier: Apache-2.0
"""The fixtures of the package, as a project that does not install it has them."""

pytest_plugins = ["fm3130.pytest_plugin"]
