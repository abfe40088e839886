"""A clerk's day in the whole QGIS, by mouse and keyboard, and the evening in another QGIS: `test_qgis_whole` has QGIS carry them out."""

from __future__ import annotations

import os

from qgis.core import QgsEditFormConfig, QgsProject
from qgis.PyQt.QtCore import Qt
from qgis.PyQt.QtGui import QColor
from qgis.PyQt.QtTest import QTest
from qgis.PyQt.QtWidgets import (
    QApplication,
    QComboBox,
    QDialogButtonBox,
    QDockWidget,
    QLineEdit,
    QListWidget,
    QMessageBox,
    QToolBar,
    QToolButton,
    QTreeWidget,
)
from qgis.utils import iface
from qgis_hands import HEIGHT, STORE, WIDTH, Hands, carried_out, wait, wait_for
from sfstore_qgis.editing import UNSEEN_SECONDS

from sfstore.web.client import Client

# What the window has room for beside the plugin's own.
TOOLBARS = {"sfstore", "mDigitizeToolBar", "mAdvancedDigitizeToolBar", "mSnappingToolBar", "mAttributesToolBar"}
LABEL = """"number" || '\\n' || coalesce("use", '')"""
# Across parcel 41: where it meets the border of parcel 42 is no step of the grid.
CUT = [(500403, 5600010), (500433, 5600023)]
CROSSED = [(500505, 5600010), (500520, 5600030), (500520, 5600010), (500505, 5600026)]
# A garden on the street, a part of which is in parcels that are there.
OVER = [(500445, 5599985), (500465, 5599985), (500465, 5600012), (500445, 5600012)]


class Day(Hands):
    """From the morning to the evening."""

    def run(self):
        self.tidy()
        self.open()
        self.label()
        self.split()
        self.be_overtaken()
        self.choose()
        self.be_refused()
        self.undo()
        self.colleague()
        self.save()

    def tidy(self):
        """Has the toolbars that are needed in a small window."""
        for bar in self.window.findChildren(QToolBar):
            if bar.parent() is self.window:
                bar.setVisible(bar.objectName() in TOOLBARS)
        self.window.setGeometry(0, 0, WIDTH, HEIGHT)
        for name in ("Browser", "Overview"):
            self.window.findChild(QDockWidget, name).hide()
        wait(0.5)

    def open(self):
        def type_path(dialog):
            field = dialog.findChild(QLineEdit, "fileNameEdit")
            field.clear()
            QTest.keyClicks(field, str(STORE))
            # The names that QGIS offers would take a key.
            field.completer().popup().hide()
            QTest.mouseClick(dialog.findChild(QDialogButtonBox).button(QDialogButtonBox.Open), Qt.LeftButton)

        self.answering(type_path)
        self.press(self.action("Open a store .."))
        wait_for(lambda: QgsProject.instance().mapLayersByName("parcels"), "the store")
        self.take()
        # What is drawn is judged at once, and its values are filled in later.
        config = self.parcels.editFormConfig()
        config.setSuppress(QgsEditFormConfig.SuppressOn)
        self.parcels.setEditFormConfig(config)
        self.click_layer("parcels")
        self.see_town()
        self.note("opened", [iface.activeLayer().name(), self.parcels.featureCount()])

    def see_town(self):
        self.see(500385, 5599975, 500505, 5600065)

    def click_layer(self, name):
        """Clicks a layer in the list of layers."""
        view = iface.layerTreeView()
        node = QgsProject.instance().layerTreeRoot().findLayer(QgsProject.instance().mapLayersByName(name)[0].id())
        QTest.mouseClick(view.viewport(), Qt.LeftButton, Qt.NoModifier, view.visualRect(view.node2index(node)).center())
        wait(0.3)

    def label(self):
        """Labels the parcels in QGIS' panel of styles, and keeps that with the store."""
        # QGIS takes a colour by chance.
        self.parcels.renderer().symbol().setColor(QColor("#cfe3c2"))
        dock = self.window.findChild(QDockWidget, "LayerStyling")
        self.key(Qt.Key_F7)
        wait_for(dock.isVisible, "the panel")
        wait(0.5)
        tabs = dock.findChild(QListWidget, "mOptionsListWidget")
        QTest.mouseClick(tabs.viewport(), Qt.LeftButton, Qt.NoModifier, tabs.visualItemRect(tabs.item(1)).center())
        wait(0.5)
        mode = dock.findChild(QComboBox, "mLabelModeComboBox")
        self.key(Qt.Key_Down, widget=mode)
        # What the labels say is typed in the one list without a name.
        [value] = [each for each in dock.findChildren(QComboBox) if each.isVisible() and not each.objectName()]
        field = value.lineEdit()
        self.key(Qt.Key_A, Qt.ControlModifier, field)
        QTest.keyClicks(field, LABEL)
        QTest.keyClick(field, Qt.Key_Tab)
        wait(1.5)
        self.picture("qgis-labels")
        self.key(Qt.Key_F7)
        wait(0.5)

        self.choose_in_menu("Style of the layer", "Keep the style with the store")
        said = self.said()
        self.note("kept", [self.session.style("parcels", "").by, said])

    def split(self):
        self.press(iface.actionToggleEditing())
        self.press(iface.actionSplitFeatures())
        self.click_along(CUT)
        wait_for(lambda: self.count() == 201, "the half")
        wait(0.5)
        self.note("split", [self.parcels.isModified(), self.bars()])

    def be_overtaken(self):
        """A form is open while a colleague changes the parcel: what is typed in it goes over nothing."""
        self.open_form()
        self.bens("set parcels 43 owner 'Ben''s'")
        # Nobody has seen what came a moment ago, with a form or without.
        wait(UNSEEN_SECONDS + 0.5)
        self.choose_in_form("garden")
        self.press_ok()
        said = self.said()
        self.note("overtaken", [self.row(43), said])

    def choose(self):
        """Chooses a value from the list that a rule gives."""
        self.open_form()
        self.choose_in_form("garden")
        self.picture("qgis-form")
        self.press_ok()
        wait_for(lambda: self.row(43).endswith("'garden'"), "what was chosen")
        self.note("chosen", self.row(43))
        [clear] = [each for each in self.results().findChildren(QToolButton) if each.text() == "Clear Results"]
        QTest.mouseClick(clear, Qt.LeftButton)
        self.results().close()
        self.see_town()

    def open_form(self):
        """Opens the form of a parcel by a click on it, and by what QGIS lists of it."""
        self.press(iface.actionIdentify())
        self.click((500453, 5600008))
        wait(0.5)
        tree = self.window.findChild(QTreeWidget, "lstResults")
        actions = tree.topLevelItem(0).child(0).child(1)
        tree.expandItem(actions)
        wait(0.3)
        QTest.mouseClick(tree.viewport(), Qt.LeftButton, Qt.NoModifier, tree.visualItemRect(actions.child(0)).center())
        wait_for(self.form, "the form")
        self.form().window().move(560, 330)
        wait(0.5)

    def results(self):
        """The panel in which QGIS lists what is at a point."""
        found = self.window.findChild(QTreeWidget, "lstResults")
        while not isinstance(found, QDockWidget):
            found = found.parent()
        return found

    def choose_in_form(self, value):
        [use] = [each for each in self.form().findChildren(QComboBox) if each.isVisible() and each.findText(value) >= 0]
        QApplication.setActiveWindow(self.form().window())
        use.setFocus()
        QTest.keyClicks(use, value)
        wait(0.3)

    def press_ok(self):
        [buttons] = [each for each in self.form().window().findChildren(QDialogButtonBox) if each.isVisible()]
        QTest.mouseClick(buttons.button(QDialogButtonBox.Ok), Qt.LeftButton)
        wait(0.8)

    def row(self, number):
        """The values of a parcel in the store."""
        [row] = self.session.rows("parcels", [number])
        return row.rpartition(")) ")[2]

    def bens(self, *lines):
        """Has Ben edit, who has seen all."""
        with Client(str(STORE), "Ben") as ben:
            version = ben.call("map")["version"]
            ben.call("batch", page="ben", lines=list(lines), seen=[version] * len(lines))

    def form(self):
        found = [each for each in QApplication.allWidgets() if each.inherits("QgsAttributeForm") and each.isVisible()]
        return found[0] if found else None

    def be_refused(self):
        self.bars()
        for points, name in ((CROSSED, "refused"), (OVER, "rule")):
            self.draw(points)
            said = self.said(f"qgis-{name}")
            self.note(name, [self.count(), said])
        # What the message says helps.
        self.choose_in_menu("Overlap", "Avoid Overlap on Active Layer")
        self.draw(OVER)
        wait_for(lambda: self.count() == 202, "the garden")
        self.note("mended", [self.parcels.getFeature(self.fid(202)).geometry().boundingBox().yMaximum(), self.bars()])

    def choose_in_menu(self, button, text):
        """Presses a button by a part of its name, and chooses from its menu."""

        def choose(menu):
            [action] = [each for each in menu.actions() if each.text() == text]
            QTest.mouseClick(menu, Qt.LeftButton, Qt.NoModifier, menu.actionGeometry(action).center())

        self.answering(choose)
        [found] = [each for each in self.window.findChildren(QToolButton) if button in each.text() and each.isVisible()]
        QTest.mouseClick(found, Qt.LeftButton)
        wait(0.5)

    def undo(self):
        self.key(Qt.Key_Z, Qt.ControlModifier)
        wait_for(lambda: self.count() == 201, "the undo")
        wait(0.5)
        self.key(Qt.Key_Z, Qt.ControlModifier)
        wait_for(lambda: self.row(43).endswith("'field'"), "the second undo")
        wait(0.5)
        self.key(Qt.Key_Z, Qt.ControlModifier | Qt.ShiftModifier)
        wait_for(lambda: self.row(43).endswith("'garden'"), "the redo")

    def colleague(self):
        self.bens("set parcels 44 use 'garden'", "set parcels 44 number 4711")
        wait_for(lambda: self.parcels.getFeature(self.fid(44))["number"] == 4711, "what Ben did")
        wait(1)
        self.note("seen", self.parcels.getFeature(self.fid(44))["use"])

    def save(self):
        def agree(box):
            button = box.button(QMessageBox.Yes)
            button.setFocus()
            QTest.keyClick(button, Qt.Key_Space)

        self.press(iface.actionToggleEditing())
        self.answering(agree)
        self.press(self.action("Save the store"))
        self.note("saved", self.said("qgis"))


class Evening(Day):
    """Another QGIS, without a project: it opens the store, and shows it as it was kept."""

    def run(self):
        self.tidy()
        self.open()
        settings = self.parcels.labeling().settings()
        self.note("labels", [self.parcels.labelsEnabled(), settings.fieldName, settings.isExpression])
        self.note("colour", self.parcels.renderer().symbol().color().name())
        self.picture("qgis-evening")


carried_out({"day": Day, "evening": Evening}[os.environ["TOUR_PART"]])
