"""Workloads: what stands for the pods of their templates, also where there are none now."""
from __future__ import annotations

import typing

from .pods import Pod
from .reading import member, name_of

KINDS = {
    ("apps/v1", "Deployment"): ("template",),
    ("apps/v1", "StatefulSet"): ("template",),
    ("apps/v1", "DaemonSet"): ("template",),
    ("batch/v1", "Job"): ("template",),
    ("batch/v1", "CronJob"): ("jobTemplate", "spec", "template"),
}
# The service account of a pod whose template names none: Kubernetes, 'Configure Service Accounts for Pods'.
ACCOUNT = "default"


class Template(Pod):
    """The pods of a workload's template."""

    def __init__(self, place: str, value: dict):
        metadata, name = name_of(place, value)
        template, path = member(place, value, "spec", dict, {}), f"{place}: spec"
        for it in KINDS[value["apiVersion"], value["kind"]]:
            template, path = member(path, template, it, dict, {}), f"{path}.{it}"
        labels = member(path, template, "metadata", dict, {}).get("labels")
        namespace = {"namespace": metadata["namespace"]} if metadata.get("namespace") is not None else {}
        spec = member(path, template, "spec", dict, {})
        super().__init__(place, {"kind": value["kind"], "metadata": {"name": name, **namespace, "labels": labels}, "spec": spec})
        self.kind, self.owner = value["kind"], owner_of(metadata)
        self.account = self.account or ACCOUNT
        self.stands_for = self.kind

    def comes(self) -> str:
        return "" if self.is_host else self.kind

    def is_of(self, pod: Pod) -> bool:
        """Whether a pod is one of its replicas; those of a CronJob are a Job's, whose name begins with its own."""
        if not pod.is_owned or pod.namespace != self.namespace:
            return False
        name = self.name.split("/", 1)[1]
        return pod.workload == name or self.kind == "CronJob" and pod.workload.rpartition("-")[0] == name

    def replaces_labels_of(self, pod: Pod) -> typing.Dict[str, str]:
        """What the pod's labels become where this template comes, its serial labels as they were."""
        kept = {key: value for key, value in pod.own.items() if key in SERIAL}
        return {**kept, **self.own}


# What controllers write on each pod: Kubernetes, 'Well-Known Labels, Annotations and Taints'.
SERIAL = (
    "pod-template-hash",
    "controller-revision-hash",
    "pod-template-generation",
    "statefulset.kubernetes.io/pod-name",
    "apps.kubernetes.io/pod-index",
    "batch.kubernetes.io/job-completion-index",
    "batch.kubernetes.io/controller-uid",
    "batch.kubernetes.io/job-name",
    "controller-uid",
    "job-name",
)


def owner_of(metadata: dict) -> typing.Optional[tuple]:
    """The kind and the name of an object's controller, or None."""
    for it in metadata.get("ownerReferences") or []:
        if isinstance(it, dict) and it.get("controller"):
            return it.get("kind"), it.get("name")
    return None
