<?xml version="1.0" encoding="UTF-8"?>
<xsl:stylesheet version="1.0" xmlns:xsl="http://www.w3.org/1999/XSL/Transform"
    xmlns:l="lines">
  <xsl:import href="../lines.xsl"/>

  <xsl:template match="/" mode="witnesses">
    <xsl:for-each select="//*/@*[. = 891]">
      <witness>
        <xsl:element name="{name(..)}">
          <l:attribute name="{name()}"/>
          <xsl:apply-templates select="../@*" mode="shown"/>
        </xsl:element>
      </witness>
    </xsl:for-each>
  </xsl:template>
</xsl:stylesheet>
