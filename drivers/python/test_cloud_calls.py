"""Tests of the reads, writes, ids, keys and clients of `torfyllan.cloud`, and of namespaces under its fixture.

    python3 drivers/python/test_cloud_calls.py
"""
import base64
import os
import pathlib
import subprocess
import sys
import tempfile
import unittest
from unittest import mock

HERE = os.path.dirname(os.path.abspath(__file__))
sys.path.insert(0, HERE)
from cloud_case import WithServer
from torfyllan import cloud
from torfyllan.references import reference_bytes


class Reads(WithServer):
    def test_lists_for_what_is_missing_and_deferred(self):
        self.tasks(1)
        missing, deferred = [], []
        keys = [self.client.key("Task", name) for name in ("t1", "t2")]
        self.assertEqual(len(self.client.get_multi(iter(keys), missing=missing, deferred=deferred)), 1)
        self.assertEqual(([entity.key for entity in missing], deferred), ([keys[1]], []))
        for words in ({"missing": missing}, {"deferred": [1]}):
            with self.assertRaises(ValueError):
                self.client.get(keys[0], **words)

    def test_writes_take_any_iterable_once(self):
        self.client.put_multi(self.made("Task", f"t{n}", n=n) for n in (1, 2))
        keys = [self.client.key("Task", name) for name in ("t1", "t2")]
        self.assertEqual(len(self.client.get_multi(keys)), 2)
        self.client.delete_multi(key for key in keys)
        self.assertEqual(self.client.get_multi(keys), [])

    def test_ids_that_are_reserved(self):
        first = self.client.allocate_ids(self.client.key("Task"), 1)[0].id
        self.client.reserve_ids_multi([self.client.key("Task", first + 10), self.client.key("Task", 5)])
        self.client.reserve_ids_sequential(self.client.key("Task", first + 15), 10)
        self.client.reserve_ids_multi([])
        entity = self.made("Task")
        self.client.put(entity)
        self.assertEqual(entity.key.id, first + 25)
        self.client.put(self.made("Task", first + 24))
        named, partial = self.client.key("Task", "a"), self.client.key("Task")
        for work in (lambda: self.client.reserve_ids_multi([named]), lambda: self.client.reserve_ids_multi([partial]),
                     lambda: self.client.reserve_ids_sequential(named, 1), lambda: self.client.reserve_ids_sequential(self.client.key("Task", 1), "5")):
            with self.assertRaises(ValueError):
                work()

    def test_keys_of_urls(self):
        # Made by App Engine's own library.
        for text, app, namespace, path in (("agxzfnNhbXBsZS1hcHByHgsSBlBhcmVudBg7DAsSBUNoaWxkIgdGZWF0aGVyDKIBBXNwYWNl", "sample-app", "space", ("Parent", 59, "Child", "Feather")),
                                           ("agZzfmZpcmVyDwsSBEtpbmQiBVRoaW5nDA", "fire", None, ("Kind", "Thing"))):
            key = cloud.Key.from_legacy_urlsafe(text)
            self.assertEqual((key.project, key.namespace, key.flat_path), (app, namespace, path))
            self.assertEqual((key.to_legacy_urlsafe("s~"), cloud.Key.from_legacy_urlsafe(text.encode())), (text.encode(), key))
        for wrong in ("", "ö", "abc", "agZzfmZpcmVyDwsSBEtpbmQiBVRoaW5n", b"\xff"):
            with self.assertRaises(ValueError):
                cloud.Key.from_legacy_urlsafe(wrong)
        partial = cloud.Key("A", 1, "B", project="p", namespace="n")
        read = cloud.Key.from_legacy_urlsafe(partial.to_legacy_urlsafe())
        self.assertEqual((read.flat_path, read.is_partial, read.namespace, read == read), (("A", 1, "B"), True, "n", False))
        with self.assertRaises(ValueError):
            cloud.Key.from_legacy_urlsafe(base64.urlsafe_b64encode(reference_bytes("p", "", [("A", None), ("B", "x")])))

    def test_clients_as_an_application_makes_them(self):
        with mock.patch.dict(os.environ, {"GOOGLE_CLOUD_PROJECT": "shop"}):
            client = cloud.Client(namespace="tenant", credentials=object(), client_options={"api_endpoint": "x"}, database="d")
            self.assertEqual((client.project, client.namespace, client.database, cloud.Client("own").project, cloud.Client(project="p").project), ("shop", "tenant", "d", "own", "p"))
        self.assertEqual(cloud.Client("p", "n").key("Task", 1).namespace, "n")
        self.assertEqual(cloud.Client.from_service_account_json("no such file", project="p").project, "p")
        client.base_url = "http://localhost"
        client.close()
        with self.assertRaises(ValueError):
            self.client.key("Task", 1, parent=cloud.Key("A", 1, namespace="n", project="p"), namespace="m")
        with self.assertRaises(ValueError):
            cloud.Key("A", 1)


FIXTURE_TESTS = """\
import pytest
from torfyllan import cloud

cloud.install()
from google.cloud import datastore

@pytest.mark.parametrize("turn", [1, 2, 3])
def test_a_tenant(cloud_client, turn):
    tenant = datastore.Client("project", namespace="tenant")
    query = tenant.query(kind="Task")
    query.keys_only()
    cloud_client._connection().settle()
    assert list(query.fetch()) == []
    entity = datastore.Entity(tenant.key("Task", "a"))
    entity.update(turn=turn, other=tenant.key("Task", "b"), own=cloud_client.key("Task", "c"))
    tenant.put(entity)
    cloud_client._connection().settle()
    found = list(tenant.query(kind="Task", filters=[("other", "=", tenant.key("Task", "b"))]).fetch())
    assert found == [entity] and found[0].key.namespace == "tenant" and found[0]["other"].namespace == "tenant" and found[0]["own"].namespace is None
    assert list(cloud_client.query(kind="Task").fetch()) == []
    with tenant.transaction():
        assert tenant.get(entity.key)["turn"] == turn
        tenant.delete(entity.key)
    entity.key = tenant.key("Task")
    tenant.put(entity)
    assert entity.key.namespace == "tenant" and tenant.allocate_ids(tenant.key("Task"), 1)[0].namespace == "tenant"
"""


class Fixtures(unittest.TestCase):
    def test_each_test_has_namespaces_of_its_own(self):
        python = next((each for each in (sys.executable, "/usr/bin/python3")
                       if os.path.exists(each) and subprocess.run([each, "-c", "import pytest"], capture_output=True).returncode == 0), None)
        if python is None:
            print("namespaces of the Cloud client's tests: not tried, since there is no pytest")
            self.skipTest("no pytest")
        with tempfile.TemporaryDirectory() as folder:
            pathlib.Path(folder, "conftest.py").write_text('pytest_plugins = ["torfyllan.pytest_plugin"]\n', encoding="utf-8")
            pathlib.Path(folder, "test_fixtures.py").write_text(FIXTURE_TESTS, encoding="utf-8")
            words = {**os.environ, "PYTHONPATH": HERE, "PYTHONDONTWRITEBYTECODE": "1"}
            ran = subprocess.run([python, "-m", "pytest", "-q", "-p", "no:cacheprovider", folder], capture_output=True, text=True, env=words)
        self.assertIn("3 passed", ran.stdout, ran.stdout + ran.stderr)


if __name__ == "__main__":
    unittest.main()
