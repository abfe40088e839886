"""A surveyor's quarter of an hour in the whole QGIS, by mouse and buttons: `test_qgis_whole` has QGIS carry it out."""

from __future__ import annotations

from qgis.core import QgsEditFormConfig, QgsGeometry, QgsProject
from qgis.PyQt.QtCore import QTimer
from qgis.PyQt.QtGui import QColor
from qgis.PyQt.QtWidgets import QAction, QApplication, QMessageBox
from qgis.utils import iface
from qgis_hands import STORE, Hands, carried_out, wait, wait_for

from sfstore.web.client import Client

GOOD = [(500515, 5600000), (500540, 5600000), (500540, 5600030), (500515, 5600030)]
CROSSED = [(500515, 5600050), (500540, 5600080), (500540, 5600050), (500515, 5600075)]
TIE = "POLYGON((500000 5600000, 500010 5600010, 500010 5600000, 500000 5600010, 500000 5600000))"


class Tour(Hands):
    """What somebody does in QGIS."""

    def __init__(self):
        super().__init__()
        self.plugin.open(str(STORE))
        self.take()

    def run(self):
        """All of it, in its order."""
        self.look()
        self.draw_and_be_refused()
        self.undo()
        self.colleague()
        self.buffered()
        self.several()
        self.session.line("save")

    def look(self):
        iface.setActiveLayer(self.parcels)
        config = self.parcels.editFormConfig()
        config.setSuppress(QgsEditFormConfig.SuppressOn)
        self.parcels.setEditFormConfig(config)
        [streets] = QgsProject.instance().mapLayersByName("streets")
        streets.renderer().symbol().setWidth(1)
        for layer, color in ((self.parcels, "#cfe3c2"), (streets, "#9a8f86")):
            layer.renderer().symbol().setColor(QColor(color))
        self.see(500360, 5599975, 500580, 5600125)
        self.note("opened", [self.parcels.featureCount(), self.parcels.crs().authid()])

    def draw_and_be_refused(self):
        iface.actionToggleEditing().trigger()
        wait()
        self.draw(GOOD)
        self.note("drawn", [self.count(), self.parcels.isModified()])
        self.bars()
        self.draw(CROSSED)
        self.note("refused", [self.count(), self.parcels.isModified(), len(self.plugin.teller.markers), self.bars()])
        self.draw([CROSSED[0], CROSSED[2], CROSSED[1], CROSSED[3]])
        self.note("mended", [self.count(), len(self.plugin.teller.markers)])

    def undo(self):
        undo = iface.mainWindow().findChild(QAction, "mActionUndo")
        wait_for(undo.isEnabled)
        undo.trigger()
        wait_for(lambda: self.count() == 201)
        wait()
        self.note("undone", [self.count(), self.parcels.featureCount()])
        redo = iface.mainWindow().findChild(QAction, "mActionRedo")
        wait_for(redo.isEnabled)
        redo.trigger()
        wait_for(lambda: self.parcels.featureCount() == 202)
        self.note("redone", [self.count(), self.parcels.featureCount()])

    def colleague(self):
        with Client(str(STORE), "Ben") as ben:
            version = ben.call("map")["version"]
            ben.call("batch", page="ben", lines=["set parcels 7 owner 'Ben''s'"], seen=[version])
            wait_for(lambda: self.owner(7) == "Ben's")
        self.note("seen", self.owner(7))
        self.plugin.tried(lambda: self.plugin.move("undo"))
        self.note("not mine", self.bars())

    def buffered(self):
        from sfstore_qgis.editing import UNSEEN_SECONDS

        # Nobody has seen what came a moment ago.
        wait(UNSEEN_SECONDS)
        self.plugin.switch.setChecked(False)
        fid = self.fid(7)
        self.parcels.changeAttributeValue(fid, self.parcels.fields().indexOf("owner"), "Ann's")
        iface.actionSaveActiveLayerEdits().trigger()
        wait()
        self.note("saved", [self.owner(7), self.parcels.isModified()])
        iface.actionToggleEditing().trigger()
        wait()
        self.note("ended", self.parcels.isEditable())

    def several(self):
        """Two layers are saved by the action for all layers: as one step, or not at all."""
        [wells] = QgsProject.instance().mapLayersByName("wells")
        for layer in (self.parcels, wells):
            layer.startEditing()
        owner = self.parcels.fields().indexOf("owner")
        self.parcels.changeAttributeValue(self.fid(8), owner, "both")
        wells.deleteFeature(next(wells.getFeatures()).id())
        self.parcels.changeGeometry(self.fid(9), QgsGeometry.fromWkt(TIE))
        self.save_all()
        self.note("none of both", [self.wells(), self.owner(8), wells.isModified(), self.parcels.isModified()])
        self.parcels.undoStack().undo()
        self.save_all()
        self.note("both", [self.wells(), wells.isModified(), self.parcels.isModified()])
        self.plugin.move("undo")
        wait_for(lambda: wells.featureCount() == 4)
        self.note("both undone", [self.wells(), self.owner(8)])

    def save_all(self):
        """QGIS asks before it saves all."""

        def agree():
            box = QApplication.activeModalWidget()
            (box.button(QMessageBox.Yes) or box.button(QMessageBox.Ok)).click()

        QTimer.singleShot(300, agree)
        iface.actionSaveAllEdits().trigger()
        wait(0.5)
        iface.messageBar().clearWidgets()

    def wells(self):
        return len(self.session.identifiers("wells"))


carried_out(Tour)
